# Sourced: installs what a script needs as Debian packages.

# A command that is missing is installed; false where it still is.
need() { # command package
    command -v "$1" >/dev/null 2>&1 && return 0
    apt-get install -y "$2" >/dev/null 2>&1 || { apt-get update >/dev/null 2>&1 && apt-get install -y "$2" >/dev/null 2>&1; }
    command -v "$1" >/dev/null 2>&1
}
