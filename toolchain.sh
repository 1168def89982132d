# Sourced by the scripts: looks for the Rattle toolchain, and says so if it is another than the one that the proofs were made with.
kit='rattle-kit-13f logic dac8208d650f15bf'
command -v rt >/dev/null || {
    echo "The Rattle toolchain's command rt is not on the PATH. Install $kit." >&2
    exit 1
}
found_kit=$(rt version)
[ "$found_kit" = "$kit" ] || echo "This is $found_kit; the proofs were made with $kit." >&2
