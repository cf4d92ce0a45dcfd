# shellcheck shell=sh
# What the scripts of this folder need of a host. They read this with `.`; each function ends the script if something is missing.

# need_gnat [TARGET]. Status 3: no GNAT, or no cross compiler for the target.
need_gnat() {
    command -v "${1:+$1-}gnatmake" >/dev/null || {
        echo "${1:+$1-}gnatmake is missing: install GNAT (Debian: apt-get install gnat${1:+-12-$1})" >&2
        exit 3
    }
    command -v gnatchop >/dev/null || {
        echo 'gnatchop is missing: install GNAT (Debian: apt-get install gnat)' >&2
        exit 3
    }
}

# need_priorities CPU. Status 4: no right to real-time priorities, or no such processor. Without the right GNAT keeps neither priorities nor ceilings.
need_priorities() {
    if ! command -v chrt >/dev/null || ! command -v taskset >/dev/null; then
        echo 'chrt or taskset is missing (Debian: apt-get install util-linux)' >&2
        exit 4
    fi
    taskset -c "$1" true 2>/dev/null || {
        echo "no processor $1 is given to this process" >&2
        exit 4
    }
    chrt -f 1 true 2>/dev/null || {
        echo 'no right to real-time priorities: root or CAP_SYS_NICE is needed' >&2
        exit 4
    }
}

# processor_of [TARGET]: the name that qemu has for the processor of a target.
processor_of() {
    case ${1:-x86_64} in
        powerpc64le-*) echo ppc64le ;;
        powerpc64-*) echo ppc64 ;;
        powerpc-*) echo ppc ;;
        *) echo "${1:-x86_64}" | sed 's/-.*//' ;;
    esac
}

# need_emulator TARGET. Status 4: no emulator of programs of the target.
need_emulator() {
    command -v "qemu-$(processor_of "$1")" >/dev/null || {
        echo "qemu-$(processor_of "$1") is missing (Debian: apt-get install qemu-user)" >&2
        exit 4
    }
}

# need_machine TARGET KERNEL. Status 4: no emulator of a machine with the processor of the target, or no kernel.
need_machine() {
    case $(processor_of "$1") in
        x86_64) package=qemu-system-x86 ;;
        aarch64) package=qemu-system-arm ;;
        *)
            echo "no machine is known for $1" >&2
            exit 4
            ;;
    esac
    command -v "qemu-system-$(processor_of "$1")" >/dev/null || {
        echo "qemu-system-$(processor_of "$1") is missing (Debian: apt-get install $package)" >&2
        exit 4
    }
    [ -r "$2" ] || {
        echo "no kernel can be read from $2" >&2
        exit 4
    }
}
