# The library compiled for this processor, where that is not x86-64. Sourced by ./libhost.
#
# rt compiles the proved library for x86-64, unless its flag names another target. Here it is compiled for this processor too, so that C and Rust can link
# it and the tests can run. tests/c_boundary.sh asks both archives.

# native ARCHIVE: writes ARCHIVE for this processor.
native() {
    (cd crates/host_c && rt lib --target "$(uname -m)-unknown-linux-gnu") && mv crates/host_c/out/libhost_c.a "$1"
}
