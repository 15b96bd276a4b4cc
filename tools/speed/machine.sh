# What tools/speed.sh says of the machine: lines `machine`, what it is, and its words, with tabs between. They name no host and no
# path.

# says WHAT WORDS: nothing if there are no words.
says() { [ -z "$2" ] || printf 'machine\t%s\t%s\n' "$1" "$2"; }

# version PROGRAM WORD..: the first line that it prints.
version() { "$@" 2> /dev/null | head -n 1; }

describe() {
    says processors "$(nproc)"
    says model "$(sed -n 's/^model name[[:space:]]*: //p' /proc/cpuinfo | head -n 1)"
    says memory "$(awk '/^MemTotal/ { printf "%.0f GB", $2 / 1e6 }' /proc/meminfo)"
    says kernel "$(uname -sr)"
    says 'load before' "$(cut -d ' ' -f 1 /proc/loadavg)"
    says 'Rattle kit' "$(version rt version)"
    says Rust "$(version rustc --version)"
    says C "$(version cc --version)"
    says Python "$(version python3 --version)"
    says crossbeam-channel "$(crate_version crossbeam-channel)"
    says tokio "$(crate_version tokio)"
    says rounds "$rounds"
    says before "$before_name"
}

# crate_version CRATE: of the sources that the distribution has, and with which the program of peers is built.
crate_version() { find "$sources" -maxdepth 1 -name "$1-[0-9]*" 2> /dev/null | sed 's/.*-//' | sort | tail -n 1; }
