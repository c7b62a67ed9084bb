# For scripts: `need COMMAND PACKAGE..` installs the packages (Debian) where the command is missing.
need() {
    command -v "$1" >/dev/null || { apt-get update && apt-get install -y "${@:2}"; } >/dev/null
}
