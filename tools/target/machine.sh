# shellcheck shell=sh
# An emulated machine of one processor that runs one program. Scripts read this with `.`, after needs.sh; `here` is the folder of both.

# in_machine TARGET KERNEL PROGRAM: runs PROGRAM as the only process of a machine with this kernel, and writes the lines of its run. The clock of the
# machine advances with each instruction, and jumps to the next event if the processor is idle. So the load of the host does not change a run. The
# kernel leaves out the tests of its ciphers and its certificates, which are two thirds of the time of a boot.
# Writes the files initramfs, console and console.errors into the current folder. Status 4: the machine did not end by itself. It is ended after 300
# seconds of the host's processor, which the load of the host does not change, or after two hours.
in_machine() {
    python3 "${here:?}/initramfs.py" "$3" >initramfs || return 4
    settings="quiet panic=-1 rdinit=/hrt_run sysctl.kernel.sched_rt_runtime_us=-1 HRT_TICK_US=${HRT_TICK_US:-1000} HRT_PAY=${HRT_PAY:-0}"
    settings="$settings cryptomgr.notests initcall_blacklist=load_system_certificate_list"
    case $(processor_of "$1") in
        x86_64) set -- "$@" -M q35,hpet=off -cpu max -append "console=ttyS0 tsc=reliable $settings" ;;
        aarch64) set -- "$@" -M virt -cpu cortex-a53 -append "console=ttyAMA0 $settings" ;;
    esac
    emulator=qemu-system-$(processor_of "$1") image=$2
    shift 3
    # shellcheck disable=SC3045  # the shells of Debian have limits of processor time
    (ulimit -t 300 && exec timeout 7200 "$emulator" "$@" -smp 1 -m 256 -icount shift=3,sleep=off -kernel "$image" -initrd initramfs \
        -nographic -no-reboot -net none) </dev/null >console 2>console.errors || {
        echo "$emulator failed: $(tail -n 1 console.errors)" >&2
        return 4
    }
    # The lines of the run are among those of the firmware and of the kernel.
    tr -d '\r' <console | sed 's/\x1b\[[0-9;?]*[a-zA-Z]//g; s/\x1bc//g' | grep -a '^ *[0-9.]* [a-z]* [0-9]'
    return 0
}
