// Stand-in for the base64 module: lib.rs declares it, and none of the original files calls it.
