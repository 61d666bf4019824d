/* An end of the library as the unchanged Rust's, by C's number: what the Rust lacks is forgotten, and an error that a check decided
   becomes the one that the Rust's order finds among its flags. The same as crates/errors/specs/AsTheRust.antt. */
#ifndef AS_THE_RUST_H
#define AS_THE_RUST_H

#include <stdint.h>

/* For a chip, and a master's call or a slave's. */
uint64_t as_the_rust(uint8_t chip, uint8_t master, uint64_t end);

#endif
