# Times rq.fit.br with rank intervals at the median on the table that is named.
suppressMessages(library(quantreg))
table <- as.matrix(read.csv(commandArgs(TRUE)[1]))
x <- cbind(1, table[, -1])
spent <- system.time(for (i in 1:3) suppressWarnings(rq.fit.br(x, table[, 1], tau = 0.5, ci = TRUE, iid = TRUE)))
cat(sprintf("R: fit and intervals %.3f s", spent[["user.self"]] / 3))
