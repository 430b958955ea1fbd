# Messages of a session against the number of items.
load "common.gnuplot"
set title "10 differences all over the order"
set logscale x
set xlabel "items of each side"
set ylabel "messages of both sides"
set xrange [100:65536]
set yrange [0:10]
set xtics ("100" 100, "1,000" 1e3, "10,000" 1e4, "65,536" 65536)
set key outside right
plot for [column = 2:6] data."/messages.data" \
    using 1:column with linespoints linetype column - 1 title columnheader(column), \
    data."/messages.data" using 1:7 with linespoints linetype 9 title columnheader(7)
