#!/bin/sh
# run.sh [-s] [-a] [-l] [-p PROFILE] [-t TICK_US] [-c CPU] [-x TARGET] [-m KERNEL] [-k FOLDER] DESIGN ARRIVALS
# Generates the Ada text of DESIGN, builds it with GNAT and the example body of package hrt, runs it on one processor up to the horizon of
# ARRIVALS, and tells how the run agrees with the replay. PROGRAM names the program that generates and replays: ./hrthood of this repository.
#   -s  stepped: each statement burns its modelled cost, and each line is compared, with its values and its tick
#   -a  the first file is an Ada text, in the layout of the generator, in the place of a design
#   -l  a child package for each object, as layout.py lays the text out
#   -p  Jorvik or Ravenscar: builds under that profile
#   -t  microseconds of a tick: 10000 with -s, else those of the design, else 1000
#   -c  the processor: 0; a list as 0-3 shows what happens on several
#   -x  builds for another target, as aarch64-linux-gnu, by GNAT's cross compiler of that name, and runs by qemu-user
#   -m  runs in a machine that qemu emulates, with the Linux kernel in the file KERNEL: its clock counts instructions, so no host disturbs it
#   -k  keeps what was built, and the lines, in FOLDER; with -s also the file `log`, a trace for `hrthood accepts`
# Status 0: the run agrees. 1: it does not. 2: wrong words, or a file that is refused. 3: GNAT is missing, or refuses the text. 4: no right to
# real-time priorities, no emulator or no kernel. 5: the run does not agree, and the host took the processor away meanwhile, so that it shows nothing.
set -u

usage() {
    sed -n '2,/^set /s/^# \{0,1\}//p' "$0" >&2
    exit 2
}

mode=responses verb=verify profile='' tick='' cpu=0 keep='' target='' kernel='' layout=cat children=''
while getopts salp:t:c:x:m:k: option; do
    case $option in
        s) mode=steps ;;
        a) verb=replay ;;
        l) layout=laid_out children=children ;;
        p) profile=$OPTARG ;;
        t) tick=$OPTARG ;;
        c) cpu=$OPTARG ;;
        x) target=$OPTARG ;;
        m) kernel=$OPTARG ;;
        k) keep=$OPTARG ;;
        *) usage ;;
    esac
done
shift $((OPTIND - 1))
[ $# -eq 2 ] || usage
here=$(CDPATH='' cd -- "$(dirname -- "$0")" && pwd) || exit 2
program=${PROGRAM:-$here/../../hrthood}
. "$here/needs.sh" || exit 2
. "$here/machine.sh" || exit 2
need_gnat "$target"
if [ -n "$kernel" ]; then
    need_machine "$target" "$kernel"
    kernel=$(realpath -- "$kernel") || exit 4
else
    need_priorities "$cpu"
    [ -z "$target" ] || need_emulator "$target"
fi

laid_out() {
    python3 "$here/layout.py"
}

# The folder `room`, which is kept where it was asked for.
if [ -n "$keep" ]; then
    mkdir -p "$keep" && room=$(cd "$keep" && pwd) || exit 2
else
    room=$(mktemp -d) || exit 2
    trap 'rm -rf "$room"' EXIT
    trap 'exit 130' HUP INT TERM
fi

# The text and its trace. A replay that stops at a violated ceiling is refused behind its trace.
python3 "$here/target.py" arrivals "$2" >"$room/arrivals" || exit 2
if [ $verb = verify ]; then
    "$program" verify "$1" "$room/arrivals" >"$room/both" || exit 2
    sed '/^-- trace$/,$d' "$room/both" >"$room/text"
    sed '1,/^-- trace$/d' "$room/both" >"$room/trace"
else
    cp -- "$1" "$room/text" || exit 2
    "$program" replay "$room/text" "$room/arrivals" >"$room/trace" || grep -q '^[0-9]* stop ' "$room/trace" || exit 2
fi
until=$(sed -n '$s/ .*//p' "$room/trace")
if [ $mode = steps ]; then
    tick=${tick:-10000}
    python3 "$here/costed.py" <"$room/text" >"$room/costed" && $layout <"$room/costed" >"$room/built" || exit 2
else
    tick=${tick:-$(python3 "$here/target.py" tick "$1")}
    $layout <"$room/text" >"$room/built" || exit 2
fi

# The folder `build` of Ada units. No line of the text is changed without -s.
rm -rf "$room/build" && mkdir "$room/build" && cd "$room/build" || exit 2
gnatchop -w -q ../built . || exit 3
cp "$here"/hrt/*.ad? . || exit 2
[ $mode = responses ] || cp "$here"/stepped/*.ad? . || exit 2
# An `out` parameter holds 0 at first in the replay. Without this, and -S00 below, it holds anything.
echo 'pragma Initialize_Scalars;' >gnat.adc
if [ -n "$profile" ]; then
    printf 'pragma Profile (%s);\npragma Partition_Elaboration_Policy (Sequential);\n' "$profile" >>gnat.adc
fi
python3 "$here/target.py" driver ../text ../arrivals "$until" . $children || exit 2
if [ -n "$target$kernel" ]; then
    "${target:+$target-}gnatmake" -q hrt_run -bargs -static -S00 -largs -static || exit 3
else
    gnatmake -q hrt_run -bargs -S00 || exit 3
fi

# The program ends itself after the horizon. A main program that got an exception doesn't, so a host ends it.
seconds=$(((until * tick + 400000) / 1000000 + 2))
export HRT_TICK_US="$tick" HRT_PAY=1
if [ -n "$kernel" ]; then
    in_machine "$target" "$kernel" hrt_run >../run || exit 4
elif [ -n "$target" ]; then
    timeout "$seconds" taskset -c "$cpu" "qemu-$(processor_of "$target")" ./hrt_run >../run
else
    timeout "$seconds" taskset -c "$cpu" ./hrt_run >../run
fi
cd .. || exit 2
case $cpu in
    # Whether the host took the processor is found on one alone.
    *[,-]*) sed -i '/ away /d' run ;;
esac
if [ $mode = steps ]; then
    # A replay that stops at a violated ceiling has no horizon, and the run no log.
    ! grep -q ' horizon$' trace || python3 "$here/to_trace.py" text arrivals run >log || exit 2
    python3 "$here/target.py" steps text trace run
else
    python3 "$here/target.py" responses text trace arrivals "$tick" run
fi
