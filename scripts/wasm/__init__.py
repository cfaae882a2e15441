"""The page's WebAssembly module: lowered to a 32-bit memory for scripts/web, and checked."""
