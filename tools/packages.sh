#!/bin/sh
# For developers, before the tests. Installs what some tests use, from Debian's packages: `sh tools/packages.sh`. Without root,
# without `apt-get` or without a network it installs nothing. Then each test whose package is missing says that it is left out. It
# never fails.
packages='pkg-config valgrind redis-server redis-tools libhiredis-dev librust-serde-dev librust-serde-derive-dev librust-bincode-dev
librust-tokio-dev librust-crossbeam-channel-dev python3-venv python3-dev mypy make pandoc graphviz mscgen'

command -v apt-get > /dev/null && [ "$(id -u)" -eq 0 ] || exit 0
missing=
for package in $packages; do
    dpkg-query -W -f '${Status}\n' "$package" 2> /dev/null | grep -q 'install ok installed' || missing="$missing $package"
done
[ -n "$missing" ] || exit 0
DEBIAN_FRONTEND=noninteractive
export DEBIAN_FRONTEND
if ! timeout 120 apt-get update -qq -o APT::Update::Error-Mode=any -o Acquire::http::Timeout=20 > /dev/null 2>&1; then
    echo "tools/packages.sh: not installed, since apt-get finds no packages:$missing"
    exit 0
fi
for package in $missing; do
    timeout 120 apt-get install -y -qq --no-install-recommends "$package" > /dev/null 2>&1 ||
        echo "tools/packages.sh: $package could not be installed"
done
exit 0
