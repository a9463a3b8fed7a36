# What the package warns of: each is seen where it is meant, and not where it isn't. The messages of faults, too.
library(quantreg.exact)

if (!nzchar(Sys.getenv("QUANTREG"))) {
    cat("skipped: fits by the program, which QUANTREG doesn't name\n")
    quit(status = 0)
}

# The messages of all warnings of a call.
warnings_of <- function(call) {
    seen <- character()
    withCallingHandlers(call, warning = function(told) {
        seen <<- c(seen, conditionMessage(told))
        invokeRestart("muffleWarning")
    })
    seen
}
sees <- function(pattern, call) any(grepl(pattern, warnings_of(call), fixed = TRUE))
printed <- function(it) paste(capture.output(print(it)), collapse = " ")
fault_of <- function(call) conditionMessage(tryCatch(call, error = identity))
three <- data.frame(y = c(0, 2, 3), x = c(0, 1, 3))

# A quartile or a median of four records may be any number between two; of three it is one of them. Where two more records lie at the lower quartile
# it is that alone, though a dual value may be at its bound.
four <- rq_exact(y ~ 1, data.frame(y = 1:4), c(0.25, 0.3, 0.5))
stopifnot(
    identical(is_unique(four), c(FALSE, TRUE, FALSE)), identical(is_unique(rq_exact(y ~ 1, three)), TRUE),
    grepl("is not unique at tau = 0.25, 0.5", printed(four)), !grepl("unique", printed(rq_exact(y ~ 1, three))),
    grepl("is not unique at tau = 0.25, 0.5", printed(summary(four))), !grepl("unique", printed(summary(rq_exact(y ~ 1, three)))),
    !isFALSE(is_unique(rq_exact(y ~ 1, data.frame(y = c(1, 1, 1, 2)), 0.25))), isTRUE(is_unique(rq_exact(y ~ qss(x, 1), data.frame(y = c(0, 2, 1, 4), x = 1:4), 0.3)))
)
# Of a process that is unique within each segment nothing is said.
stopifnot(!grepl("unique", printed(rq_exact(y ~ x, three, tau = -1))))
# Where a dual value stays at its bound, it may be otherwise within a whole segment, and where no other record lies on the fit it is.
bound <- rq_exact(y ~ x, three, tau = -1)
bound$segments[[1]]$basic["1", ] <- "1"
stopifnot(identical(is_unique(bound), c(FALSE, TRUE)), grepl("is not unique within 1 of 2 segments: 0 to 3/5", printed(bound)))
bound$segments[[1]]$marks <- "***"
bound$coefficients[, 1] <- c(0, 1)
bound$frame$y[2] <- 1
stopifnot(identical(is_unique(bound), c(NA, TRUE)), grepl("may not be unique within 1 of 2 segments", printed(bound)))

# Tied responses, on which Wilcoxon scores and rank tests depend; the range over some orders holds the statistic of the table's order.
set.seed(7)
stopifnot(
    sees("6 of 20 records share their response", rank_test_exact(extra ~ group, sleep, 2)), !sees("share", rank_test_exact(y ~ x, three, 2)),
    sees("share their response", ranks_exact(extra ~ group, sleep)), !sees("share", ranks_exact(y ~ x, three))
)
several <- rank_test_exact(extra ~ group, sleep, 2, orders = 30)
stopifnot(
    length(several$orders) == 30, several$orders[1] == several$statistic, all.equal(several$statistic, 3.174), several$range[2] > 4,
    diff(rank_test_exact(y ~ x, three, 2, orders = 5)$range) == 0
)

# A column of numbers with a few texts, of texts that are numbers, and of texts.
made <- function(x) data.frame(y = c(1, 5, 2, 8, 3, 9), x = x)
for (odd in c("two", "-", "N/A", "2020-01-01")) stopifnot(sees(dQuote(odd, FALSE), rq_exact(y ~ x, made(c("1", "2", "3", odd, "1", "2")))))
stopifnot(
    sees("is a factor, since 1 of its 6 cells", rq_exact(y ~ x, made(factor(c("1", "2", "3", "two", "1", "2"))))),
    sees("a number or a fraction", rq_exact(y ~ x, made(c("1/86", "2", "3", "3", "1/86", "2")))),
    sees("each of which is a number:", rq_exact(y ~ x, made(c("1", "2", "3", "3", "1", "2")))),
    !length(warnings_of(rq_exact(y ~ x, made(c("a", "b", "b", "a", "c", "c"))))), !length(warnings_of(rq_exact(y ~ x, made(c(1, 2, 3, 4, 5, 7))))),
    # A column that isn't used says nothing.
    !length(warnings_of(rq_exact(y ~ 1, made(c("1", "2", "3", "two", "1", "2")))))
)
# An order of levels, which R codes by contr.poly, is told of where a fit is printed; another factor isn't.
stopifnot(
    grepl("x by contr.poly", printed(rq_exact(y ~ x, made(factor(c("lo", "hi", "lo", "hi", "lo", "hi"), ordered = TRUE))))),
    !grepl("contr", printed(rq_exact(y ~ x, made(factor(c("lo", "hi", "lo", "hi", "lo", "hi"), levels = c("lo", "hi"))))))
)
# Contrasts that a subset takes from a factor, as R warns of them too.
lost <- made(factor(c("a", "b", "c", "a", "b", "c")))
contrasts(lost$x) <- contr.sum(3)
for (fit in list(rq_exact, lm)) stopifnot(sees("contrasts dropped from factor x due to missing levels", fit(y ~ x, lost, subset = x != "c")))
# The reference of relevel is kept.
stopifnot(identical(names(coef(rq_exact(y ~ x, made(relevel(factor(c("a", "b", "c", "a", "b", "c")), "b"))))), c("(Intercept)", "xa", "xc")))

# A quantile beyond 0 to 1.
for (tau in list(1.5, -0.5, 50, c(-1, 0.5), NA, "half")) stopifnot(grepl("a quantile is a number from 0 to 1", fault_of(rq_exact(y ~ x, three, tau))))

# Faults in words of the call.
wide <- data.frame(y = 1:140, f = sprintf("f%03d", 1:140), g = rep(c("a", "b"), 70))
for (case in list(
    list(quote(rq_exact(dist ~ sped, cars)), "There is no column 'sped'; did you mean 'speed'?"),
    list(quote(rq_exact(dist ~ speed, cars, weights = "weihgt")), "There is no column 'weihgt' for the weights"),
    list(quote(rq_exact(y ~ f + g, wide)), "the factor f has 140 levels"),
    list(quote(rq_exact(y ~ x + I(2 * x), three)), "is 0 in every record. Leave out one of them."),
    list(quote(rq_exact(f ~ y, wide)), "The response is no column of numbers; it has \"f001\""),
    list(quote(rq_exact(y ~ x, read.csv(text = "y;x\n1;2\n3;5"))), "read the file by read.csv2"),
    list(quote(rq_exact(y ~ x, data.frame(y = c(1, NA), x = c(NA, 2)))), "Missing are 1 of y, 1 of x"),
    list(quote(rq_exact(y ~ x, data.frame(y = c(1e30, 1e-30, 3.3e-9, 7), x = c(1e25, 1e-22, 3.1, 1 / 3)))), "Round columns of many digits"),
    list(quote(rq_exact(y ~ x, three, tau = -1, pivots = 0)), "gives a greater limit"),
    list(quote(rank_test_exact(y ~ x, three, "z")), "the design has no column 'z'"),
    list(quote(rq_exact(y ~ x, three, program = "/nowhere/quantreg")), "the Debian package quantreg brings it"),
    list(quote(predictions_exact(y ~ x, three)), "A record to predict has NA as its y")
)) {
    told <- fault_of(eval(case[[1]]))
    if (!grepl(case[[2]], told, fixed = TRUE)) stop(deparse1(case[[1]]), " says: ", told)
}
# The status and the line of the program stand there as they are.
fault <- tryCatch(rq_exact(dist ~ sped, cars), quantreg_error = identity)
stopifnot(fault$status == 1, fault$name == "UnknownName", startsWith(conditionMessage(fault), paste0("status 1: ", fault$line)))
cat("all of it holds\n")
