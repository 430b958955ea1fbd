# Bytes against differences that lie all over the order.
load "common.gnuplot"
set title "65,536 items of 16 bytes, differences all over the order"
load "bytes.gnuplot"
plot for [column = 2:10] data."/bytes-spread.data" \
    using 1:column with linespoints linetype column - 1 title columnheader(column)
