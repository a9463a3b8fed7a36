# The times of rq.fit.br on the generated tables of process_bench.txt, over all quantiles and at the median alone: the least of five, in
# milliseconds of a processor. The first call of a session compiles R's own code too.
library(quantreg)

# The first `count` cells of the generated table of number 1: (z div 65536) mod 1000 for each next z, which is
# (1664525 * z + 1013904223) mod 2^32. The product goes by halves of 16 bits, so that it is exact in doubles.
cells <- function(count) {
    z <- 1
    made <- numeric(count)
    for (k in seq_len(count)) {
        high <- (1664525 * (z %/% 65536)) %% 65536
        z <- (high * 65536 + 1664525 * (z %% 65536) + 1013904223) %% 4294967296
        made[k] <- (z %/% 65536) %% 1000
    }
    made
}

# The least of five means of so many fits, in milliseconds.
time_fit <- function(count, fit) {
    spent <- vapply(1:5, function(turn) {
        taken <- system.time(for (k in seq_len(count)) fit())
        taken[["user.self"]] + taken[["sys.self"]]
    }, 0)
    1000 * min(spent) / count
}

make_table <- function(shape) {
    table <- matrix(cells(shape[1] * shape[2]), nrow = shape[1], byrow = TRUE)
    x <- cbind(1, table[, -1])
    # rq.fit.br names its process by the names of the columns.
    colnames(x) <- paste0("x", seq_len(ncol(x)) - 1)
    list(x = x, y = table[, 1])
}

for (shape in list(c(100, 5), c(1000, 5), c(2000, 5), c(5000, 4), c(100, 10), c(2000, 10))) {
    made <- make_table(shape)
    least <- time_fit(1, function() fit <<- rq.fit.br(made$x, made$y, tau = -1))
    cat(sprintf("R: %d x %d: %.0f ms, %d breakpoints\n", shape[1], shape[2], least, ncol(fit$sol)))
}
for (shape in list(c(1000, 5, 20), c(2000, 10, 20), c(16384, 5, 2), c(16384, 10, 2))) {
    made <- make_table(shape)
    least <- time_fit(shape[3], function() rq.fit.br(made$x, made$y, tau = 0.5))
    cat(sprintf("R: %d x %d at the median: %.2f ms\n", shape[1], shape[2], least))
}
# Engel's households: what the program takes for them is timed by bench/whole, from bytes to bytes.
data(engel)
x <- cbind(x0 = 1, x1 = engel$income)
least <- time_fit(1, function() fit <<- rq.fit.br(x, engel$foodexp, tau = -1))
cat(sprintf("R: engel, 235 x 2: %.1f ms, %d breakpoints\n", least, ncol(fit$sol)))
