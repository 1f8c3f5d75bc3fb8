# The pattern (((S;P)@600)-Y) by hand, for bench/watch.
NR == 1 { next }
{
    t = $1
    if (index($2, "Y")) yaw = t + 1
    if (index($2, "P") && step && t + 1 - step <= 600 && yaw < step) {
        print step - 1, t
        windows++
        ticks += t + 2 - step
    }
    if (index($2, "S")) step = t + 1
}
END { printf "windows %d ticks %d\n", windows, ticks }
