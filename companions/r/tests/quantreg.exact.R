# What the package gives, beside values that are worked by hand or by R. With no program in QUANTREG only texts are read.
library(quantreg.exact)

missing <- tryCatch(find_quantreg("/nowhere/quantreg"), error = conditionMessage)
stopifnot(identical(substring(missing, 1, 64), "no program /nowhere/quantreg: the Debian package quantreg brings"))

line <- "quantreg 1
records 3 dropped 0
column 1 (Intercept)
column 2 x
data 3 penalty 0
pivots 2
segment 1 0 3/5
coef 1 0
coef 2 1
loss 0 3/5
scores *1*
basic 1 1 0
basic 3 1 1/5
segment 2 3/5 1
coef 1 3/2
coef 2 1/2
loss 3/5 0
scores 0**
basic 2 1 0
basic 3 1/5 0
interval 1 1/2 0 3/2
interval 2 1/2 -Inf Inf
end
"
report <- read_report(line)
stopifnot(
    identical(report$names, c("(Intercept)", "x")), report$pivots == 2, length(report$segments) == 2,
    identical(report$segments[[2]]$coef, c("3/2", "1/2")), identical(report$segments[[1]]$basic["3", "hi"], "1/5"),
    identical(fraction_value(report$intervals$high), c(1.5, Inf)), identical(fraction_value("-1/4"), -0.25),
    abs(fraction_value(paste0("-1", strrep("0", 400), "/4", strrep("0", 399))) + 2.5) < 1e-15
)
ranks <- read_report("quantreg ranks 1\nrecords 2 dropped 0\ncolumn 1 a \\x09\\x5cb\npivots 1\nwilcoxon 1 -1/4\nwilcoxon 2 1/4\nend\n")
stopifnot(identical(ranks$names, "a \t\\b"), identical(ranks$wilcoxon, c("-1/4", "1/4")))
predict <- "quantreg predict 1
records 3 dropped 2
column 1 (Intercept)
column 2 x
pivots 2
predict 4
step 0 3/5 4
step 3/5 1 7/2
rearranged 4
step 0 2/5 7/2
step 2/5 1 4
predict 5
step 0 3/5 -1
step 3/5 1 1
rearranged 5
step 0 3/5 -1
step 3/5 1 1
end
"
predicted <- read_report(predict)$predictions
stopifnot(
    identical(predicted$record, rep(4:5, each = 4)), identical(predicted$is_rearranged, rep(c(FALSE, FALSE, TRUE, TRUE), 2)),
    identical(predicted$hi[1:4], c("3/5", "1", "2/5", "1")), identical(predicted$value, c("4", "7/2", "7/2", "4", "-1", "1", "-1", "1"))
)
# A slope of 1 loses 1/2 + lambda, one of 1/2 loses 3/4 + lambda/2, and none loses 3/2.
path <- "quantreg path 1
records 3 dropped 0
column 1 (Intercept)
column 2 x
data 3 penalty 1
pivots 3
segment 1 1/4 1/2
coef 1 0
coef 2 1
loss 3/4 1
sides *+*-
dual 1 -5/12 -1/2
dual 3 -1/12 0
segment 2 1/2 3/2
coef 1 3/2
coef 2 1/2
loss 1 3/2
sides -**-
dual 2 1/2 0
dual 3 0 1/2
segment 3 3/2 2
coef 1 2
coef 2 0
loss 3/2 3/2
sides -*+*
dual 2 0 0
dual 4 -3/2 -3/2
end
"
bent <- read_report(path)
stopifnot(
    bent$kind == "path", bent$penalty == 1, length(bent$segments) == 3, identical(bent$segments[[2]]$coef, c("3/2", "1/2")),
    bent$segments[[3]]$marks == "-*+*", identical(bent$segments[[1]]$basic["3", ], c(lo = "-1/12", hi = "0"))
)
# The Wilcoxon scores of 0, 2 and 3 are -1/3, 0 and 1/3, and x less its mean has the squared length 14/3: 12 * 1 * 3/14.
nested <- "quantreg test 1
records 3 dropped 0
column 1 (Intercept)
column 2 x
tested 2
pivots 2
score 2 1
statistic 18/7
end
"
found <- read_report(nested)
stopifnot(found$kind == "test", identical(found$tested, 2L), identical(found$scores, "1"), identical(found$statistic, "18/7"))
refused <- function(text) inherits(try(read_report(text), silent = TRUE), "try-error")
lines <- strsplit(line, "\n")[[1]]
stopifnot(refused(lines[-length(lines)]), refused(sub("quantreg 1", "quantreg 2", line)), refused(lines[-9]), refused(lines[-13]))
stopifnot(refused(sub("dual 3 -1/12 0\n", "", path, fixed = TRUE)), refused(sub("quantreg path 1", "quantreg 1", path)))
stopifnot(refused(sub("score 2 1\n", "", nested)), refused(sub("score 2", "score 1", nested)), refused(sub("statistic", "total", nested)))

# A program that writes down its words and answers with a given text and status.
fake <- function(answer, status = 0) {
    at <- tempfile("program")
    writeLines(answer, paste0(at, ".answer"))
    to <- if (status == 0) "" else " >&2"
    writeLines(c("#!/bin/sh", sprintf("printf '%%s\\n' \"$@\" > %s.words; cat > %s.table; cat %s.answer%s; exit %d", at, at, at, to, status)), at)
    Sys.chmod(at, "755")
    at
}
three <- data.frame(y = c(0, 2, 3), x = c(0, 1, 3))
median <- sub("segment 1 0 3/5", "segment 1 1/2 1/2", sub("\nsegment 2.*?\ninterval", "\ninterval", line))
program <- fake(strsplit(median, "\n")[[1]])
fit <- rq_exact(y ~ x, three, program = program)
table <- summary(fit, alpha = 0.1)
words <- readLines(paste0(program, ".words"))
stopifnot(
    identical(readLines(paste0(program, ".table")), c("\"y\",\"x\"", "0,0", "2,1", "3,3")),
    identical(words[1:4], c("process", "--formula=y ~ x", "--lo=0.5", "--hi=0.5")), words[7] == "--rank-at=0.5",
    abs(fraction_value(sub("--crit=", "", words[6])) / qt(0.95, 1)^2 - 1) < 1e-5,
    identical(unname(table$tables[[1]][, "upper bd"]), c(1.5, Inf)), identical(unname(table$tables[[1]][, 1]), c(0, 1))
)
program <- fake(strsplit(path, "\n")[[1]])
bent <- path_exact(y ~ x, three, tau = "1/2", lo = "1/4", hi = 2, program = program)
ends <- data.frame(lo = c("1/4", "1/2", "3/2"), hi = c("1/2", "3/2", "2"), loss_lo = c("3/4", "1", "3/2"), loss_hi = c("1", "3/2", "3/2"))
stopifnot(
    identical(readLines(paste0(program, ".words")), c("path", "--formula=y ~ x", "--tau=1/2", "--lo=1/4", "--hi=2", "--contrasts=treatment")),
    identical(bent$exact, cbind(ends, "(Intercept)" = c("0", "3/2", "2"), x = c("1", "1/2", "0"))),
    identical(bent$segments$x, c(1, 0.5, 0)), identical(bent$segments$loss_hi, c(1, 1.5, 1.5))
)
program <- fake(strsplit(sub("tested 2", "tested 1,2", sub("score", "score 1 -1/2\nscore", nested)), "\n")[[1]])
tested <- rank_test_exact(y ~ x, three, 1:2, weights = "x", program = program)
stopifnot(
    identical(readLines(paste0(program, ".words")), c("test", "--formula=y ~ x", "--tested=1,2", "--weights=x", "--contrasts=treatment")),
    identical(tested$scores, c("(Intercept)" = -0.5, x = 1)), tested$statistic == 18 / 7, tested$columns == 2,
    identical(tested$exact, list(scores = c("-1/2", "1"), statistic = "18/7"))
)
fault <- tryCatch(
    rq_exact(y ~ x, three, program = fake("quantreg: design: NumberTooWide record=1 column=a b=\\x5cc", 1)), quantreg_error = identity
)
stopifnot(fault$status == 1, fault$name == "NumberTooWide", identical(fault$fields, list(record = "1", column = "a b=\\c")))

# Three of four records lie on the square of x, and the second lies 1 above: the dual values -3/16, 1/2, -3/8 and 1/16 balance 1, x and
# its square.
curve <- "quantreg 1
records 4 dropped 0
column 1 (Intercept)
column 2 x
column 3 I(x^2)
data 4 penalty 0
pivots 1
segment 1 1/2 1/2
coef 1 0
coef 2 0
coef 3 1
loss 1/2 1/2
scores *1**
basic 1 5/16 5/16
basic 3 1/8 1/8
basic 4 9/16 9/16
end
"
four <- data.frame(y = c(0, 2, 4, 16), x = c(0, 1, 2, 4))
program <- fake(strsplit(curve, "\n")[[1]])
fit <- rq_exact(y ~ x + I(x^2), four, program = program)
stopifnot(
    identical(readLines(paste0(program, ".words"))[2], "--formula=y ~ x + I(x^2)"),
    identical(coef(fit, exact = TRUE), c("(Intercept)" = "0", x = "0", "I(x^2)" = "1")),
    all.equal(unname(residuals(fit)), c(0, 1, 0, 0)), all.equal(unname(fitted(fit)), c(0, 1, 4, 16))
)
# Half of x is 0, 1 and 3, and less twice z the responses are 0, 2 and 3: the line above, at its median. The fourth record lacks z.
shifted <- data.frame(y = 2, x = c(0, 2, 6, 1), z = c(1, 0, -0.5, NA))
half <- sub("interval.*end", "end", sub("column 2 x", "column 2 I(1/2 * x)", sub("dropped 0", "dropped 1", sub("0 3/5\nscores", "1/2 1/2\nscores", line))))
half <- sub("segment 1 0 3/5", "segment 1 1/2 1/2", sub("segment 2.*end", "end", half))
half <- sub("basic 3 1 1/5", "basic 3 1/3 1/3", sub("basic 1 1 0", "basic 1 1/6 1/6", half))
program <- fake(strsplit(half, "\n")[[1]])
fit <- rq_exact(y ~ I(0.5 * x) + offset(2 * z), shifted, program = program)
stopifnot(
    identical(readLines(paste0(program, ".words"))[2], "--formula=y ~ I(0.5 * x) + offset(2 * z)"),
    identical(readLines(paste0(program, ".table")), c("\"y\",\"x\",\"z\"", "2,0,1", "2,2,0", "2,6,-0.5", "2,1,NA")),
    # The names are R's, which leaves numbers as they were written.
    identical(names(coef(fit)), names(coef(lm(y ~ I(0.5 * x) + offset(2 * z), shifted)))), identical(fit$exact_loss, "1/2"),
    all.equal(unname(residuals(fit)), c(0, 1, 0)), all.equal(unname(fitted(fit)), c(2, 1, 2))
)
# R and the program read these alike.
for (formula in list(y ~ I(1/2 * x) + offset(2 * z), y ~ I(2/4 * x) + offset(z) + offset((z)), y ~ I(x * 0.5) + offset(3 * z) + offset(-z))) {
    named <- if ("I(x * 0.5)" %in% attr(terms(formula), "term.labels")) sub("1/2 * x", "x * 1/2", half, fixed = TRUE) else half
    fit <- rq_exact(formula, shifted, program = fake(strsplit(named, "\n")[[1]]))
    stopifnot(all.equal(unname(residuals(fit)), c(0, 1, 0)), identical(names(coef(fit)), names(coef(lm(formula, shifted)))))
}
# A quotient of columns has no meaning for the program, and of these numbers another one: R works them out.
for (formula in list(y ~ I(x/2), y ~ I(3/2^2 * x), y ~ I(x * 3/2), y ~ I(x^1.5), y ~ I(sqrt(x)), y ~ I(2 * -x))) {
    told <- quantreg.exact:::model_of(formula, four)
    stopifnot(identical(told$asked, "y ~ `<x2>`"), all.equal(told$data[["<x2>"]], unname(model.matrix(formula, four)[, 2])))
}
# Of equal offsets R takes one.
stopifnot(identical(quantreg.exact:::model_of(y ~ offset(x) + offset(2 * x) + offset(x), four)$asked, "y ~ offset(x) + offset(2 * x)"))
# An answer that isn't that of the table has another loss.
fit <- rq_exact(y ~ I(0.5 * x) + offset(3 * z), shifted, program = program)
stopifnot(inherits(try(residuals(fit), silent = TRUE), "try-error"))

if (!nzchar(Sys.getenv("QUANTREG"))) {
    cat("skipped: fits by the program, which QUANTREG doesn't name\n")
    quit(status = 0)
}

median <- rq_exact(stack.loss ~ ., stackloss)
stopifnot(
    identical(unname(coef(median, exact = TRUE)), c("-13693/345", "287/345", "66/115", "-7/115")),
    all.equal(sum(abs(residuals(median))) / 2, 7259 / 345), all.equal(unname(residuals(median) + fitted(median)), stackloss$stack.loss),
    identical(which(residuals(median) == 0), c("2" = 2L, "8" = 8L, "16" = 16L, "18" = 18L))
)
all_quantiles <- rq_exact(stack.loss ~ ., stackloss, tau = -1)
stopifnot(length(all_quantiles$segments) == 25, identical(dim(coef(all_quantiles)), c(4L, 25L)))
several <- rq_exact(y ~ x, three, tau = c("1/5", "4/5"))
stopifnot(identical(unname(coef(several)["x", ]), c(1, 0.5)), identical(dim(residuals(several)), c(3L, 2L)))
weighted <- rq_exact(y ~ 1, data.frame(y = c(1, 2, 9), w = c(1, 3, 0)), tau = "1/8", weights = "w")
stopifnot(coef(weighted) == 1, weighted$dropped == 1, identical(unname(residuals(weighted)), c(0, 1)))
factors <- data.frame(y = c(1, 4, 2, 8, 5, 7), f = c("b", "a", "c", "b", "a", "c"))
for (contrasts in c("treatment", "sas", "sum", "helmert")) {
    stopifnot(length(residuals(rq_exact(y ~ f, factors, contrasts = contrasts))) == 6)
}
stopifnot(inherits(try(rq_exact(y ~ f, data.frame(y = c(1, Inf), f = 1:2)), silent = TRUE), "try-error"))
stopifnot(identical(ranks_exact(y ~ x, three)$exact, c("-1/5", "3/10", "-1/10")))
fit <- rq_exact(y ~ x + I(x^2), four)
stopifnot(identical(unname(coef(fit, exact = TRUE)), c("0", "0", "1")), all.equal(unname(residuals(fit)), c(0, 1, 0, 0)))
fit <- rq_exact(y ~ I(0.5 * x) + offset(2 * z), shifted)
stopifnot(
    identical(coef(fit, exact = TRUE), c("(Intercept)" = "0", "I(0.5 * x)" = "1")), fit$dropped == 1,
    all.equal(unname(residuals(fit)), c(0, 1, 0)), all.equal(unname(fitted(fit)), c(2, 1, 2))
)
# Less their offsets the responses are 0, 2 and 1, and the median 1 has the offset 5 added.
asked <- predictions_exact(y ~ offset(x), data.frame(y = c(1, 3, 2, NA), x = c(1, 1, 1, 5)), lo = "1/2", hi = "1/2")
stopifnot(identical(asked$exact$value, c("6", "6")))
fault <- tryCatch(rq_exact(y ~ I(f + 1), data.frame(y = 1:2, f = c("a", "b"))), quantreg_error = identity)
stopifnot(fault$status == 1, fault$name == "ArithNotNumeric", identical(fault$fields, list(name = "f")))
asked <- predictions_exact(y ~ x, data.frame(y = c(0, 2, 3, NA, NA), x = c(0, 1, 3, 4, -1)))
stopifnot(identical(asked$exact, predicted), identical(asked$steps$value, c(4, 3.5, 3.5, 4, -1, 1, -1, 1)))
stopifnot(identical(path_exact(y ~ x, three, tau = 0.5, lo = 0.25, hi = 2), bent))
tested <- rank_test_exact(y ~ x, three, 2)
stopifnot(identical(tested$exact, list(scores = "1", statistic = "18/7")), identical(tested$scores, c(x = 1)))
for (wrong in list(1:2, 3, 0)) {
    fault <- tryCatch(rank_test_exact(y ~ x, three, wrong), quantreg_error = identity)
    stopifnot(fault$status == 1, fault$group == "test")
}
# The losses of a path are those of its coefficients by R's design, and the sum of the penalised ones never rises.
lasso_loss <- function(coefficients, lambda, tau) {
    residuals <- drop(stackloss$stack.loss - model.matrix(stack.loss ~ ., stackloss) %*% coefficients)
    sum(residuals * (tau - (residuals < 0))) + lambda * sum(abs(coefficients[-1]))
}
penalised <- path_exact(stack.loss ~ ., stackloss, tau = 0.3, lo = "1/10", hi = 500)$segments
slopes <- as.matrix(penalised[, -(1:4)])
stopifnot(
    nrow(penalised) > 2, penalised$lo[1] == 0.1, penalised$hi[nrow(penalised)] == 500, penalised$lo[-1] == penalised$hi[-nrow(penalised)],
    diff(rowSums(abs(slopes[, -1]))) <= 1e-12, slopes[nrow(slopes), -1] == 0,
    all.equal(penalised$loss_lo, vapply(seq_len(nrow(slopes)), function(at) lasso_loss(slopes[at, ], penalised$lo[at], 0.3), 0)),
    all.equal(penalised$loss_hi, vapply(seq_len(nrow(slopes)), function(at) lasso_loss(slopes[at, ], penalised$hi[at], 0.3), 0))
)
# The records 1 to 5 have the interval 2 to 4 for each critical value from 1/5 to below 9/5, such as the square of qt(0.75, 4).
found <- summary(rq_exact(y ~ 1, data.frame(y = 1:5)), alpha = 0.5)$tables[[1]]
stopifnot(identical(unname(found[1, ]), c(3, 2, 4)))

# Each picture has something on it.
for (draw in list(function() plot(all_quantiles), function() plot(several))) {
    file <- tempfile(fileext = ".png")
    if (capabilities("png")) {
        grDevices::png(file, 800, 600)
        draw()
        grDevices::dev.off()
        stopifnot(file.size(file) > 3000)
    }
}
stopifnot(inherits(try(plot(median), silent = TRUE), "try-error"))

if (requireNamespace("quantreg", quietly = TRUE)) {
    both <- compare_rq(stack.loss ~ ., stackloss, c(0.25, 0.5))
    stopifnot(both$summary$verdict == "same", both$summary$difference < 1e-9, nrow(both$coefficients) == 8)
    # A curve, and a known slope, which rq itself passes over.
    for (formula in list(dist ~ speed + I(speed^2), dist ~ I(0.5 * speed) + offset(2 * speed))) {
        found <- compare_rq(formula, cars, c(0.25, 0.5, 0.75))
        stopifnot(found$summary$verdict %in% c("same", "not unique: both losses agree"))
    }
    # At 1/2 of two records any value between them has the same loss.
    two <- compare_rq(y ~ 1, data.frame(y = c(1, 2, 3, 4)))
    stopifnot(two$summary$verdict %in% c("same", "not unique: both losses agree"))
    # rqss wants its own words on the path. Its lambda is twice ours: the fit at twice the number has our loss, to the digits
    # of an interior point method.
    suppressPackageStartupMessages(library(quantreg))
    wave <- data.frame(x = rep(1:12, 2), y = c(3, 9, 4, 12, 7, 2, -5, -3, -9, -8, 1, -2, 5, 4, 8, 9, 9, 1, -4, -9, -6, -11, -3, 2))
    smooth_loss <- function(values, lambda, tau) {
        residuals <- wave$y - values[wave$x]
        sum(residuals * (tau - (residuals < 0))) + lambda * sum(abs(diff(diff(values))))
    }
    for (lambda in c(0.2, 0.5, 1.5)) for (tau in c(0.25, 0.5)) {
        ours <- fraction_value(rq_exact(stats::as.formula(sprintf("y ~ qss(x, %g)", lambda)), wave, tau)$exact_loss)
        theirs <- vapply(1:2, function(times) {
            fit <- rqss(y ~ qss(x, lambda = times * lambda), tau = tau, data = wave)
            smooth_loss(fitted(fit)[match(1:12, wave$x)], lambda, tau)
        }, 0)
        stopifnot(abs(theirs[2] - ours) < 1e-5 * ours)
        # The fit at the same number is another one.
        if (tau == 0.25) stopifnot(theirs[1] > ours + 0.5)
    }
    # The lambda of rq's lasso is twice ours too: at twice the number it has our loss, to the digits of its method.
    for (lambda in c(4, 10, 20)) {
        ours <- path_exact(stack.loss ~ ., stackloss, tau = 0.3, lo = lambda)$segments$loss_lo
        theirs <- vapply(1:2, function(times) {
            fit <- quantreg::rq.fit.lasso(model.matrix(stack.loss ~ ., stackloss), stackloss$stack.loss, 0.3, times * lambda)
            lasso_loss(fit$coefficients, lambda, 0.3)
        }, 0)
        # The fit at the same number is another one.
        stopifnot(abs(theirs[2] - ours) < 1e-5 * ours, theirs[1] > ours + 0.2)
    }
    # The rank test of nested models, where no response is tied, to rounding; with score = "tau" it is another one.
    nested_test <- function(large, small, data, score) {
        fits <- suppressWarnings(lapply(list(large, small), function(it) quantreg::rq(it, data = data)))
        suppressWarnings(anova(fits[[1]], fits[[2]], test = "rank", score = score)$table)
    }
    for (case in list(
        list(Employed ~ GNP + Unemployed, Employed ~ 1, 2:3, longley), list(Employed ~ Year + GNP + Unemployed, Employed ~ Year, 3:4, longley),
        list(GNP ~ Year + Population, GNP ~ Year, 3, longley), list(demand ~ Time, demand ~ 1, 2, BOD), list(y1 ~ x1 + x4, y1 ~ 1, 2:3, anscombe)
    )) {
        ours <- rank_test_exact(case[[1]], case[[4]], case[[3]])
        theirs <- nested_test(case[[1]], case[[2]], case[[4]], "wilcoxon")
        stopifnot(ours$columns == theirs$ndf, abs(ours$statistic / ours$columns / theirs$Tn - 1) < 1e-9)
        stopifnot(abs(ours$statistic / ours$columns / nested_test(case[[1]], case[[2]], case[[4]], "tau")$Tn - 1) > 1e-3)
    }
} else {
    cat("skipped: comparisons with rq, for R has no package quantreg\n")
}
cat("all of it holds\n")
