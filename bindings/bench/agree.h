// Whether the library, C by hand and plain Rust do the same on random words, refused ones among them.
#ifndef AGREE_H
#define AGREE_H

// Ends the program with a sentence where they don't.
void agree(void);

#endif
