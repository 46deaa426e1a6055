# Sourced by scripts: stops with a plain message where something they need is missing.
for tool in rt python3 rustc; do
    if ! command -v "$tool" >/dev/null 2>&1; then
        case $tool in
        rt) echo "The Rattle toolchain is missing: put its command 'rt' on PATH (README.md names the version)." >&2 ;;
        *) echo "'$tool' is missing: install it, and try again." >&2 ;;
        esac
        exit 1
    fi
done
