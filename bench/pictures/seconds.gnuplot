# Seconds of a session against differences, for nine lines: three bandwidths below one another, three round trips side
# by side.
load "common.gnuplot"
set terminal svg size 1100,1000 dynamic font "sans-serif,12" background "white"
set logscale xy
set xrange [1:10000]
set yrange [0.05:30]
set format x "10^{%L}"
set ytics ("0.1 s" 0.1, "1 s" 1, "10 s" 10)
set multiplot layout 3,3 title "Seconds by items that differ all over the order, 65,536 items of 16 bytes (computed)" \
    margins 0.07,0.98,0.05,0.91 spacing 0.05,0.08
set key off
do for [megabits in "1 10 100"] {
    do for [milliseconds in "20 100 300"] {
        set title sprintf("round trip %s ms, %s Mbit/s", milliseconds, megabits)
        # One key for all, where there is room.
        if (megabits eq "100" && milliseconds eq "20") {
            set key top right
        } else {
            set key off
        }
        plot for [column = 2:6] sprintf("%s/seconds-%s-%s.data", data, milliseconds, megabits) \
            using 1:column with linespoints linetype column - 1 title columnheader(column)
    }
}
unset multiplot
