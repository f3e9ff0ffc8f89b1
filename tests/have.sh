# Installing what a script needs. To be sourced.

# Is a command there, or can its Debian package be installed?
packages_listed=no
have() { # COMMAND PACKAGE
    command -v "$1" >/dev/null && return
    [ "$(id -u)" -eq 0 ] || return
    [ "$packages_listed" = yes ] || apt-get update >/dev/null 2>&1 || true
    packages_listed=yes
    DEBIAN_FRONTEND=noninteractive apt-get install -y "$2" >/dev/null 2>&1 || return
    command -v "$1" >/dev/null
}
