# shellcheck shell=bash
# For tests to read in: tools that are installed by apt where they are missing.

# have PACKAGE TOOL..: installs the package where one of its tools is missing; ends the test where that cannot be done
have() {
    local package="$1" tool missing=
    shift
    for tool in "$@"; do command -v "$tool" > /dev/null || missing="$tool"; done
    [ -n "$missing" ] || return 0
    { apt-get update -qq && apt-get install -qq -y --no-install-recommends "$package"; } > /dev/null 2>&1 || true
    for tool in "$@"; do
        command -v "$tool" > /dev/null && continue
        echo "FAILED: $0: $tool is missing, and apt could not install $package" >&2
        exit 1
    done
}
