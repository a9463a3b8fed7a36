# What the package answers beyond the program's reports: short critical values, answers of any size, predictions, tests, tables.
library(quantreg.exact)
inner <- asNamespace("quantreg.exact")

# No fraction with a lesser denominator is within a share of 1/100000 of the square.
for (alpha in c(0.2, 0.1, 0.05, 0.01)) for (df in list(NULL, 3, 40)) {
    square <- (if (is.null(df)) qnorm(1 - alpha / 2) else qt(1 - alpha / 2, df))^2
    text <- critical_value(alpha, df)
    under <- as.numeric(sub("^[0-9]+/?", "", paste0(text, if (!grepl("/", text)) "/1")))
    lesser <- seq_len(under - 1)
    stopifnot(abs(fraction_value(text) / square - 1) <= 1e-5, !any(abs(round(square * lesser) / lesser / square - 1) <= 1e-5))
}
stopifnot(identical(critical_value(0.1), "441/163"), inherits(try(critical_value(2), silent = TRUE), "try-error"))
# A number of 400 digits over one of 401.
stopifnot(all.equal(fraction_value(paste0("-", strrep("5", 400), "/", "2", strrep("0", 400))), -0.27777777777777777))

if (!nzchar(Sys.getenv("QUANTREG"))) {
    cat("skipped: fits by the program, which QUANTREG doesn't name\n")
    quit(status = 0)
}

# The program, save that a job, or a run that asks for rank intervals, ends as if a number had outgrown it.
refusing <- function(pattern, place) {
    at <- tempfile("program")
    writeLines(c(
        "#!/bin/sh",
        sprintf("case \"$*\" in %s) echo 'quantreg: solver: Overflow place=%s quantity=statistic at=1 term=1 op=mul left=2 right=3' >&2; exit 7 ;; esac", pattern, place),
        sprintf("exec %s \"$@\"", shQuote(find_quantreg()))
    ), at)
    Sys.chmod(at, "755")
    at
}
three <- data.frame(y = c(0, 2, 3), x = c(0, 1, 3))
rises <- c("(Intercept)", "speed")

# Critical values are taken as they are, or made of a level.
fit <- rq_exact(dist ~ speed, cars, tau = c(0.25, 0.5))
stopifnot(
    summary(fit, crit = "46/17")$crit == "46/17", summary(fit, alpha = 0.05, tcrit = FALSE)$crit == "315/82",
    identical(rownames(confint(fit)[[1]]), rises), identical(dim(confint(fit, "speed", level = 0.9)[[2]]), c(1L, 2L))
)
# Each interval holds its coefficient, and a greater level has the wider one.
wide <- as.data.frame(summary(fit, alpha = 0.05))
narrow <- as.data.frame(summary(fit, alpha = 0.2))
stopifnot(wide$lower <= narrow$lower, narrow$lower <= narrow$estimate, narrow$estimate <= narrow$upper, narrow$upper <= wide$upper)

if (requireNamespace("gmp", quietly = TRUE)) {
    warned <- function(call) tryCatch(call, warning = conditionMessage)
    # Intervals one by one are those of the program, whose ends are infinite too at an outer quantile, and of one column alone.
    for (case in list(list(stack.loss ~ ., stackloss, 0.5), list(dist ~ speed, cars, 0.25), list(stack.loss ~ ., stackloss, 0.05), list(y ~ 1, data.frame(y = c(1, 2, 4, 7, 11)), 0.5))) {
        asked <- summary(rq_exact(case[[1]], case[[2]], case[[3]]), crit = "46/17")
        found <- summary(rq_exact(case[[1]], case[[2]], case[[3]], program = refusing("*--rank-at*", "interval:2:1/2")), crit = "46/17")
        stopifnot(identical(asked$exact, found$exact), any(grepl("by exact arithmetic of R's package gmp", found$notes)), !any(grepl("gmp", asked$notes)))
    }
    # Where the other columns have no fit either, that interval is missing and its cause is told.
    deaf <- refusing("*--rank-at*|*\"y ~ 0 + x1\"*", "interval:2:1/2")
    found <- summary(rq_exact(dist ~ speed, cars, program = deaf))
    stopifnot(
        is.na(found$tables[[1]][, 2:3]), !is.na(found$tables[[1]][, 1]),
        any(startsWith(found$notes, "no rank interval of speed at tau = 0.5: quantreg: solver: Overflow"))
    )
    # The scores of the README's three records, and the statistic of its rank test, of which R has the others.
    suppressWarnings(stopifnot(
        identical(ranks_exact(y ~ x, three, program = refusing("ranks*", "process"))$exact, c("-1/5", "3/10", "-1/10")),
        identical(rank_test_exact(y ~ x, three, 2, program = refusing("test*", "test"))$exact, list(scores = "1", statistic = "18/7")),
        identical(rank_test_exact(stack.loss ~ ., stackloss, 2:4, program = refusing("test*", "full"))$exact$statistic, "131034135696/7232275883")
    ))
    stopifnot(grepl("gmp, not by the proved program", warned(ranks_exact(y ~ x, three, program = refusing("ranks*", "process")))))
    stopifnot(is.list(warned(ranks_exact(y ~ x, three))))
    # The steps of the records 4 and -1 at 4 and 5, as the README works them out, and with an offset.
    asked <- data.frame(y = c(0, 2, 3, NA, NA), x = c(0, 1, 3, 4, -1))
    suppressWarnings(found <- predictions_exact(y ~ x, asked, program = refusing("*predict*--hi=1*", "predict:4")))
    stopifnot(
        identical(found$exact$value, c("4", "7/2", "7/2", "4", "-1", "1", "-1", "1")), identical(found$exact$hi[1:4], c("3/5", "1", "2/5", "1")),
        identical(found$exact[-1, ], predictions_exact(y ~ x, asked)$exact[-1, ])
    )
    suppressWarnings(found <- predictions_exact(y ~ x + offset(2 * x), asked, program = refusing("*predict*--hi=1*", "predict:4")))
    stopifnot(identical(found$exact$value, predictions_exact(y ~ x + offset(2 * x), asked)$exact$value))
    # Another place of status 7 is no case for it.
    fault <- tryCatch(ranks_exact(y ~ x, three, program = refusing("ranks*", "elsewhere")), quantreg_error = identity)
    stopifnot(fault$status == 7, grepl("Round columns of many digits", conditionMessage(fault)))
} else {
    cat("skipped: answers of any size, for R has no package gmp\n")
}

# Predictions: a vector, a matrix, and functions of the quantile, of which the rearranged one never falls.
process <- rq_exact(y ~ x, three, tau = -1)
stopifnot(
    all.equal(unname(predict(rq_exact(y ~ x, three, 0.25), data.frame(x = c(4, NA)))), c(4, NA)), nobs(process) == 3,
    identical(dim(predict(rq_exact(y ~ x, three, c(0.25, 0.75)), data.frame(x = 1:4))), c(4L, 2L)),
    all.equal(unname(predict(process, data.frame(x = 4), tau = c(0.5, 0.7))[1, ]), c(4, 3.5)),
    all.equal(predict(process, data.frame(x = 4), stepfun = TRUE, rearranged = TRUE)(c(0.3, 0.5)), c(3.5, 4)),
    inherits(try(predict(fit, cars, tau = 0.1), silent = TRUE), "try-error")
)
shifted <- rq_exact(log(dist) ~ sqrt(speed) + offset(2 * speed), cars)
stopifnot(all.equal(predict(shifted, cars), fitted(shifted)), all.equal(unname(residuals(shifted) + fitted(shifted)), log(cars$dist)))
stopifnot(identical(names(coef(shifted)), c("(Intercept)", "sqrt(speed)")))

# Tables of coefficients.
stopifnot(
    identical(as.data.frame(process)$exact, c("0", "1", "3/2", "1/2")), identical(as.data.frame(process)$hi, c(0.6, 0.6, 1, 1)),
    identical(names(as.data.frame(fit)), c("tau", "term", "estimate", "exact"))
)
if (requireNamespace("generics", quietly = TRUE)) {
    tidied <- generics::tidy(fit, conf.int = TRUE, conf.level = 0.8)
    stopifnot(identical(tidied$conf.low, narrow$lower), identical(tidied$term, rep(rises, 2)))
}
# A summary of all quantiles is at its quartiles, or where it is asked for.
whole <- rq_exact(dist ~ speed, cars, tau = -1)
stopifnot(identical(summary(whole)$tau, c("1/4", "1/2", "3/4")), identical(summary(whole, tau = 0.25)$exact, summary(rq_exact(dist ~ speed, cars, 0.25))$exact))

# The levels of a factor are R's: their order, a reference of relevel, and numbers.
for (table in list(warpbreaks, transform(warpbreaks, tension = relevel(tension, "M")), transform(warpbreaks, tension = factor(as.integer(tension))))) {
    fit <- rq_exact(breaks ~ wool * tension, table)
    stopifnot(identical(names(coef(fit)), colnames(model.matrix(breaks ~ wool * tension, table))), length(residuals(fit)) == 54)
}
half <- rq_exact(len ~ factor(dose), ToothGrowth)
stopifnot(length(residuals(half)) == 60, rq_exact(y ~ f, data.frame(y = 1:2, f = factor(1:2)))$records == 2)
predicted <- predict(rq_exact(breaks ~ tension, warpbreaks), data.frame(tension = c("H", "L")))
stopifnot(identical(unname(predicted), unname(fitted(rq_exact(breaks ~ tension, warpbreaks)))[c(54, 1)]))

# The first example of ?rq: a matrix beside the table, quantiles in front of it, a sample, its weights, and lines of engel.
rq <- rq_exact
stopifnot(identical(unname(coef(rq(stack.loss ~ stack.x, .5), exact = TRUE)), c("-13693/345", "287/345", "66/115", "-7/115")))
stopifnot(length(rq(stack.loss ~ stack.x, tau = -1)$segments) == 25)
set.seed(1)
sample <- round(rnorm(51), 6)
weighted <- rq(sample ~ 1, weights = round(runif(51), 3))
stopifnot(coef(rq(sample ~ 1)) == median(sample), weighted$weights == "(weights)", coef(weighted) %in% sample)
stopifnot(is.numeric(coef(rq(rnorm(50) ~ 1))))
if (requireNamespace("quantreg", quietly = TRUE)) {
    utils::data("engel", package = "quantreg")
    income <- engel$income
    foodexp <- engel$foodexp
    lines <- coef(rq((foodexp) ~ (income), tau = c(.05, .1, .25, .75, .9, .95)))
    theirs <- coef(quantreg::rq(foodexp ~ income, tau = c(.05, .1, .25, .75, .9, .95)))
    stopifnot(all.equal(unname(lines), unname(theirs)), !anyNA(summary(rq(foodexp ~ income, engel))$tables[[1]]))
    # Nested fits, where no response is tied, with R's F value and its p-value.
    ours <- anova(rq_exact(GNP ~ Year + Population, longley), rq_exact(GNP ~ Year, longley))
    fits <- suppressWarnings(list(quantreg::rq(GNP ~ Year + Population, data = longley), quantreg::rq(GNP ~ Year, data = longley)))
    theirs <- anova(fits[[1]], fits[[2]], test = "rank", score = "wilcoxon")$table
    stopifnot(all.equal(ours[["F value"]], theirs$Tn), all.equal(ours[["Pr(>F)"]], theirs$pval), ours$Df == 1)
}
stopifnot(inherits(try(anova(rq_exact(dist ~ speed, cars), rq_exact(dist ~ 1, head(cars, 9))), silent = TRUE), "try-error"))
named <- suppressWarnings(rank_test_exact(stack.loss ~ ., stackloss, "Acid.Conc."))
stopifnot(named$columns == 1, identical(names(named$scores), "Acid.Conc."))

# Many fits at once, in the order of the jobs, and all quantiles by parts: the single run's but for its pivots.
jobs <- lapply(c(0.25, 0.5, 0.75), function(tau) list(formula = dist ~ speed, data = cars, tau = tau))
stopifnot(identical(lapply(fit_all(jobs), coef, exact = TRUE), lapply(jobs, function(job) coef(do.call(rq_exact, job), exact = TRUE))))
stopifnot(inherits(try(fit_all(c(jobs, list(list(formula = dist ~ nothing, data = cars)))), silent = TRUE), "try-error"))
single <- rq_exact(stack.loss ~ ., stackloss, tau = -1)
for (parts in c(1, 2, 3, 7)) {
    found <- fit_parts(stack.loss ~ ., stackloss, parts)
    stopifnot(identical(found$segments, single$segments), identical(found$exact, single$exact), identical(found$tau, single$tau))
}
# A cut at a breakpoint is seen by the marks, and parts that can't be joined are fitted as one.
ends <- list(list(marks = "1*0*", hi = "1/2"), list(marks = "1**0", hi = "1"))
left <- list(segments = ends[1], pivots = 1)
stopifnot(is.null(quantreg.exact:::joined(left, list(segments = ends[2], pivots = 1))))

# Each picture has something on it.
if (capabilities("png")) {
    for (draw in list(
        function() plot(whole, alpha = 0.1, trim = 0.1), function() plot(rq_exact(dist ~ speed, cars, 1:9 / 10), crit = "46/17"),
        function() plot(summary(rq_exact(breaks ~ tension, warpbreaks, c(0.25, 0.5)))), function() plot_fit(whole)
    )) {
        file <- tempfile(fileext = ".png")
        grDevices::png(file, 800, 600)
        draw()
        grDevices::dev.off()
        stopifnot(file.size(file) > 3000)
    }
}
cat("all of it holds\n")
