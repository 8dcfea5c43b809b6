//go:build portable || !linux || (!amd64 && !arm64)

// The library as C, for machines that have no build of their own.
#include "../dist/portable/passkey.c"
