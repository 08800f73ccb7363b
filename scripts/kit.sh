# Sourced by the scripts: stops in one line where the toolchain is missing, and says so where its
# logic is not that of the one that the README names. Whichever it is proves the crates anew.
KIT='rattle-kit-13f logic dac8208d650f15bf'

require_kit() {
    if ! command -v rt >/dev/null 2>&1; then
        echo "irrdesk: the command 'rt' of the Rattle toolchain ($KIT) is not on the PATH" >&2
        exit 2
    fi
    found=$(rt version)
    if [ "${found#* logic }" != "${KIT#* logic }" ]; then
        echo "irrdesk: this repository was proved with the toolchain '$KIT'," \
            "and this one is '$found'" >&2
    fi
}
