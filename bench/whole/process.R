# The best of three times of rq.fit.br over all quantiles, in seconds of a processor: process.R TABLE, the first of whose numeric columns
# is the response unless the table has a column stack.loss or foodexp. Reading the table isn't counted.
suppressMessages(library(quantreg))
table <- read.csv(commandArgs(trailingOnly = TRUE)[1])
table <- table[names(table) != "X"]
response <- c(intersect(c("stack.loss", "foodexp"), names(table)), names(table)[1])[1]
x <- cbind(1, as.matrix(table[names(table) != response]))
spent <- vapply(1:3, function(turn) {
    taken <- system.time(fit <<- rq.fit.br(x, table[[response]], tau = -1))
    taken[["user.self"]] + taken[["sys.self"]]
}, 0)
cat(sprintf("rq.fit.br %.3f s, %d breakpoints\n", min(spent), ncol(fit$sol)))
