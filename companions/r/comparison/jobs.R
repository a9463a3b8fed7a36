# Eight jobs on thirty tables of R's datasets, each beside what R's own quantreg gives, and a table of what came of them.
#
#     QUANTREG=/path/to/quantreg Rscript jobs.R [FILE]     writes the table to FILE, too
#
# The jobs are a fit, the process, a summary with rank intervals, the rank test of nested models, predictions, Wilcoxon scores, a smooth and the
# lasso. It ends with status 1 where fewer than 225 of the 240 cells work: where ours has no answer, or another one than R without a cause
# that is seen in the table (a fit that isn't unique, ties).
suppressMessages({
    library(quantreg.exact)
    library(quantreg)
})

with_codes <- function(data, name) cbind(data, at = as.integer(factor(data[[name]])))

# Name, table, formula, the smaller formula of the rank test, and the column of the smooth.
cases <- list(
    list("stackloss", stackloss, stack.loss ~ Air.Flow + Water.Temp + Acid.Conc., stack.loss ~ Air.Flow + Water.Temp, "Water.Temp"),
    list("cars", cars, dist ~ speed, dist ~ 1, "speed"),
    list("faithful", faithful, eruptions ~ waiting, eruptions ~ 1, "waiting"),
    list("mtcars", mtcars, mpg ~ wt + hp, mpg ~ wt, "hp"),
    list("iris", iris, Sepal.Length ~ Petal.Length + Species, Sepal.Length ~ Petal.Length, "Petal.Length"),
    list("airquality", airquality, Ozone ~ Wind + Temp, Ozone ~ Wind, "Temp"),
    list("women", women, weight ~ height, weight ~ 1, "height"),
    list("trees", trees, Volume ~ Girth + Height, Volume ~ Girth, "Girth"),
    list("swiss", swiss, Fertility ~ Agriculture + Education, Fertility ~ Agriculture, "Education"),
    list("longley", longley, Employed ~ GNP + Unemployed, Employed ~ GNP, "Year"),
    list("attitude", attitude, rating ~ complaints + learning + raises, rating ~ complaints, "complaints"),
    list("chickwts", with_codes(chickwts, "feed"), weight ~ feed, weight ~ 1, "at"),
    list("PlantGrowth", with_codes(PlantGrowth, "group"), weight ~ group, weight ~ 1, "at"),
    list("InsectSprays", with_codes(InsectSprays, "spray"), count ~ spray, count ~ 1, "at"),
    list("ToothGrowth", ToothGrowth, len ~ supp + dose, len ~ supp, "dose"),
    list("warpbreaks", with_codes(warpbreaks, "tension"), breaks ~ wool + tension, breaks ~ wool, "at"),
    list("sleep", with_codes(sleep, "ID"), extra ~ group, extra ~ 1, "at"),
    list("morley", morley, Speed ~ factor(Expt), Speed ~ 1, "Run"),
    list("rock", rock, area ~ peri + perm, area ~ peri, "perm"),
    list("pressure", pressure, pressure ~ temperature, pressure ~ 1, "temperature"),
    list("quakes", quakes, mag ~ depth + stations, mag ~ depth, "stations"),
    list("LifeCycleSavings", LifeCycleSavings, sr ~ pop15 + ddpi, sr ~ pop15, "pop15"),
    list("USArrests", USArrests, Murder ~ Assault + UrbanPop, Murder ~ Assault, "UrbanPop"),
    list("anscombe", anscombe, y1 ~ x1 + x4, y1 ~ x1, "x1"),
    list("attenu", attenu, accel ~ dist + mag, accel ~ dist, "mag"),
    list("beaver1", beaver1, temp ~ time + activ, temp ~ time, "time"),
    list("BOD", BOD, demand ~ Time, demand ~ 1, "Time"),
    list("Orange", as.data.frame(Orange), circumference ~ age, circumference ~ 1, "age"),
    list("Puromycin", Puromycin, rate ~ conc + state, rate ~ conc, "conc"),
    list("infert", infert, age ~ parity + education, age ~ parity, "parity")
)

lambda <- 2

check_loss <- function(residuals, tau) sum(residuals * (tau - (residuals < 0)))

# Whether two numbers or lists of them agree to some digits of the greater size.
near <- function(ours, theirs, share = 1e-6) length(ours) > 0 && all(abs(ours - theirs) <= share * pmax(1, abs(ours), abs(theirs)))

is_within <- function(value, low, high) value == low | value == high | value >= low & value <= high

# Whether R's own fit of the other columns refuses the values between our end of an interval and R's where ours is the narrower one, and doesn't
# where ours is the wider. `inward` is 1 at a low end and -1 at a high one.
is_confirmed <- function(it, column, crit, ours, theirs, inward) {
    far <- 10 * max(1, abs(c(ours, theirs)[is.finite(c(ours, theirs))]))
    middle <- mean(pmin(far, pmax(-far, c(ours, theirs))))
    others <- it$x[, -column, drop = FALSE]
    dual <- rq.fit.br(others, it$y - middle * it$x[, column], tau = 0.5)$dual
    statistic <- sum((dual - 0.5) * it$x[, column])
    length <- sum(qr.resid(qr(others), it$x[, column])^2)
    (statistic^2 > fraction_value(crit) * length / 4) == (inward * (ours - theirs) > 0)
}

agreed <- function(same, cause) if (same) "same" else cause

# What each job comes to on a case: `same`, a cause why it is another answer, or the fault line in its place. `it` has R's design as well.
jobs <- list(
    fit = function(it) {
        found <- compare_rq(it$formula, it$data)$summary$verdict
        agreed(found == "same", if (startsWith(found, "not unique")) "not unique" else paste("other:", found))
    },
    process = function(it) {
        ours <- rq_exact(it$formula, it$data, tau = -1)
        theirs <- rq(it$formula, tau = -1, data = it$data)$sol
        losses <- vapply(1:19 / 20, function(tau) {
            one <- ours$coefficients[, findInterval(tau, fraction_value(ours$tau))]
            other <- theirs[-(1:3), max(which(theirs[1, ] <= tau))]
            c(check_loss(it$y - it$x %*% one, tau), check_loss(it$y - it$x %*% other, tau))
        }, numeric(2))
        # A step of R's may end by rounding just beyond a quantile at which two fits meet: both have the same loss.
        agreed(near(losses[1, ], losses[2, ], 1e-9), "other losses")
    },
    summary = function(it) {
        found <- summary(rq_exact(it$formula, it$data))
        ours <- found$tables[[1]][, 2:3, drop = FALSE]
        if (anyNA(ours)) return("no interval")
        # R has the values on both sides of each end. Ours is one of them, or lies between.
        sides <- rq.fit.br(it$x, it$y, tau = 0.5, alpha = 0.1, ci = TRUE, interp = FALSE)$coefficients[, -1, drop = FALSE]
        sides[abs(sides) > 1e300] <- sign(sides[abs(sides) > 1e300]) * Inf
        ends <- cbind(pmin(sides[, 1], sides[, 2]), pmax(sides[, 1], sides[, 2]), pmin(sides[, 3], sides[, 4]), pmax(sides[, 3], sides[, 4]))
        room <- 1e-9 * abs(ours)
        low <- is_within(ours[, 1], ends[, 1] - room[, 1], ends[, 2] + room[, 1])
        high <- is_within(ours[, 2], ends[, 3] - room[, 2], ends[, 4] + room[, 2])
        if (all(low & high)) return("same")
        at_low <- vapply(which(!low), function(at) is_confirmed(it, at, found$crit, ours[at, 1], ends[at, 2], 1), NA)
        at_high <- vapply(which(!high), function(at) is_confirmed(it, at, found$crit, ours[at, 2], ends[at, 3], -1), NA)
        if (all(at_low, at_high)) "ours by R's own statistic" else "other interval"
    },
    anova = function(it) {
        ours <- anova(rq_exact(it$formula, it$data), rq_exact(it$smaller, it$data))[["F value"]]
        theirs <- anova(rq(it$formula, data = it$data), rq(it$smaller, data = it$data), test = "rank", score = "wilcoxon")$table$Tn
        agreed(near(ours, theirs, 1e-9), it$cause)
    },
    predict = function(it) {
        records <- utils::head(it$data, 5)
        fit <- rq_exact(it$formula, it$data, tau = c(0.25, 0.5))
        ours <- predict(fit, records)
        theirs <- predict(rq(it$formula, data = it$data, tau = c(0.25, 0.5)), records)
        agreed(near(ours[!is.na(ours)], theirs[!is.na(ours)]), if (!all(is_unique(fit) %in% TRUE)) "not unique" else "other")
    },
    ranks = function(it) {
        ours <- ranks_exact(it$formula, it$data)$ranks
        theirs <- ranks(rq(it$formula, tau = -1, data = it$data), score = "wilcoxon")$ranks
        if (near(ours, theirs)) return("same")
        # Where a fit has more records on it than columns, the scores are any that balance the columns.
        agreed(FALSE, if (near(crossprod(it$x, ours), crossprod(it$x, theirs), 1e-4)) "ties: the same sums by column" else "other scores")
    },
    smooth = function(it) {
        response <- as.character(it$formula[[2]])
        ours <- rq_exact(stats::as.formula(sprintf("%s ~ qss(%s, %g)", response, it$smooth, lambda)), it$data)$loss
        data <- stats::na.omit(it$data[c(response, it$smooth)])
        fit <- rqss(stats::as.formula(sprintf("%s ~ qss(%s, lambda = %g)", response, it$smooth, 2 * lambda)), data = data)
        at <- sort(unique(data[[it$smooth]]))
        slopes <- diff(fitted(fit)[match(at, data[[it$smooth]])]) / diff(at)
        theirs <- check_loss(data[[response]] - fitted(fit), 0.5) + lambda * sum(abs(diff(slopes)))
        agreed(near(ours, theirs, 1e-4), if (ours < theirs) "ours has the lesser loss" else "other loss")
    },
    lasso = function(it) {
        ours <- path_exact(it$formula, it$data, tau = 0.5, lo = lambda)$segments$loss_lo
        beta <- rq.fit.lasso(it$x, it$y, tau = 0.5, lambda = 2 * lambda)$coefficients
        theirs <- check_loss(it$y - it$x %*% beta, 0.5) + lambda * sum(abs(beta[-1]))
        agreed(near(ours, theirs, 1e-5), if (ours < theirs) "ours has the lesser loss" else "other loss")
    }
)

# Why a table may have other answers than R's: ties in the response, or a fit that isn't unique.
cause_of <- function(y, fit) {
    if (anyDuplicated(y)) return("tied responses")
    if (!all(is_unique(fit) %in% TRUE)) "not unique" else "other"
}

failing <- function(fault) if (inherits(fault, "quantreg_error")) paste0("`", fault$line, "`") else paste("error:", conditionMessage(fault))

run_case <- function(case) {
    frame <- model.frame(case[[3]], case[[2]])
    it <- list(data = case[[2]], formula = case[[3]], smaller = case[[4]], smooth = case[[5]], y = model.response(frame), x = model.matrix(case[[3]], frame))
    it$cause <- tryCatch(cause_of(it$y, rq_exact(it$formula, it$data)), error = function(fault) "other")
    vapply(jobs, function(job) tryCatch(suppressWarnings(job(it)), error = failing), "")
}

results <- t(vapply(cases, run_case, character(length(jobs))))
rownames(results) <- vapply(cases, `[[`, "", 1)
works <- results %in% c("same", "not unique", "tied responses", "ties: the same sums by column", "ours has the lesser loss", "ours by R's own statistic")
text <- c(
    paste("| table |", paste(names(jobs), collapse = " | "), "|"), paste0("|", strrep("---|", length(jobs) + 1)),
    paste("|", rownames(results), "|", apply(results, 1, paste, collapse = " | "), "|")
)
words <- commandArgs(trailingOnly = TRUE)
if (length(words)) writeLines(text, words[1]) else writeLines(text)
cat(sprintf("%d of %d cells work, %d of them with R's answer\n", sum(works), length(results), sum(results == "same")))
quit(status = if (sum(works) < 225) 1 else 0)
