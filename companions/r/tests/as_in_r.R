# Calls as a user of R writes them, beside R's own answer: rq's coefficients or, where rq takes no such argument, what rq.wfit makes of lm's design.
library(quantreg.exact)

if (!nzchar(Sys.getenv("QUANTREG"))) {
    cat("skipped: fits by the program, which QUANTREG doesn't name\n")
    quit(status = 0)
}
if (!requireNamespace("quantreg", quietly = TRUE)) {
    cat("skipped: calls beside rq, for R has no package quantreg\n")
    quit(status = 0)
}
rq <- quantreg::rq
fault_of <- function(call) tryCatch({ call; "no error" }, error = conditionMessage)
says <- function(pattern, call) {
    told <- fault_of(call)
    if (!grepl(pattern, told, fixed = TRUE)) stop("not '", pattern, "' but '", told, "'", call. = FALSE)
}
warned <- function(call) tryCatch({ call; "" }, warning = conditionMessage)

# Both have the same names in the same order, and the same coefficients or, where the fit isn't unique, the same loss: that of R's design.
agrees <- function(ours, theirs, x, y, weight = 1, tau = 0.5, near = 1e-6) {
    if (!identical(names(coef(ours)), names(theirs))) stop(deparse1(ours$call), ": ", paste(names(coef(ours)), "beside", names(theirs), collapse = ", "), call. = FALSE)
    far <- max(abs(coef(ours) - theirs) / pmax(1, abs(theirs)))
    loss <- function(beta) sum(weight * (y - x %*% beta) * (tau - (y - x %*% beta < 0)))
    if (far > near && (isTRUE(is_unique(ours)) || abs(loss(coef(ours)) - loss(theirs)) > 1e-8 * loss(theirs))) {
        stop(deparse1(ours$call), " has ", paste(format(coef(ours)), collapse = " "), " and not ", paste(format(theirs), collapse = " "), call. = FALSE)
    }
}

# The fit of a call beside rq's by the design and the response that lm makes of the same call.
like_lm <- function(..., tau = 0.5, digits = NULL) {
    ours <- suppressWarnings(rq_exact(..., tau = tau, digits = digits))
    model <- suppressWarnings(lm(..., x = TRUE, y = TRUE))
    y <- model$y - if (is.null(model$offset)) 0 else model$offset
    weight <- if (is.null(model$weights)) rep(1, length(y)) else model$weights
    theirs <- suppressWarnings(quantreg::rq.wfit(model$x, y, tau, weight)$coefficients)
    # Rounded columns have coefficients that are near.
    agrees(ours, theirs, model$x, y, weight, tau, if (is.null(digits)) 1e-6 else 10^(2 - digits))
    invisible(ours)
}

# Weights, subsets and offsets are looked up in the data, and then where the formula was made; never is a global one taken for a column.
D <- transform(cars, w = rep(1:5, 10), z = speed / 2)
w <- rep(1, 50)
agrees(rq_exact(dist ~ speed, D, weights = w), coef(rq(dist ~ speed, data = D, weights = w)))
stopifnot(!isTRUE(all.equal(coef(rq_exact(dist ~ speed, D, weights = w)), coef(rq_exact(dist ~ speed, D)))))
agrees(rq_exact(dist ~ speed, D, weights = "w"), coef(rq(dist ~ speed, data = D, weights = w)))
agrees(rq_exact(dist ~ speed, D, weights = w^2 + 1), coef(rq(dist ~ speed, data = D, weights = w^2 + 1)))
outer <- function() {
    heavy <- rep(c(1, 4), 25)
    rq_exact(dist ~ speed, D, weights = heavy)
}
agrees(outer(), coef(rq(dist ~ speed, data = D, weights = rep(c(1, 4), 25))))
# Where the formula was made elsewhere, and R finds no weights, those of the caller are taken.
line <- dist ~ speed
inside <- function() {
    local_weights <- rep(c(1, 4), 25)
    rq_exact(line, D, weights = local_weights)
}
stopifnot(identical(coef(inside()), coef(outer())))
says("object 'local_weights' not found", (function() { local_weights <- 1; lm(line, D, weights = local_weights) })())
says("object 'nowhere' not found", rq_exact(dist ~ speed, D, weights = nowhere))
says("did you mean 'z'", rq_exact(dist ~ speed, D, weights = "zz"))
agrees(rq_exact(dist ~ speed, D, subset = speed > 10), coef(rq(dist ~ speed, data = D, subset = speed > 10)))
agrees(rq_exact(dist ~ speed, D, subset = -(1:5), weights = w), coef(rq(dist ~ speed, data = D, subset = -(1:5), weights = w)))
stopifnot(identical(names(residuals(rq_exact(dist ~ speed, D, subset = speed > 20))), names(residuals(lm(dist ~ speed, D, subset = speed > 20)))))
offset_fit <- rq_exact(dist ~ speed, D, offset = 2 * z)
agrees(offset_fit, coef(rq(I(dist - 2 * z) ~ speed, data = D)))
stopifnot(all.equal(predict(offset_fit, data.frame(speed = 10, z = c(5, 7))), predict(rq(I(dist - 2 * z) ~ speed, data = D), data.frame(speed = c(10, 10))) + c(10, 14)))
agrees(rq_exact(dist ~ offset(z) + speed, D, offset = z), coef(rq(I(dist - 2 * z) ~ speed, data = D)))
says("subset takes no record", rq_exact(dist ~ speed, D, subset = speed > 100))
# Each job takes them.
stopifnot(identical(
    suppressWarnings(ranks_exact(dist ~ speed, D, subset = speed > 15, weights = w)$exact),
    suppressWarnings(ranks_exact(dist ~ speed, D[D$speed > 15, ], weights = "w")$exact)
))
both <- compare_rq(dist ~ speed, D, c(0.25, 0.75), weights = w, subset = speed > 5)
stopifnot(both$summary$verdict == "same", both$fit$records == sum(D$speed > 5))

# Missing cells.
air <- transform(airquality, Month = factor(Month))
for (rule in list(na.omit, na.exclude)) {
    ours <- rq_exact(Ozone ~ Wind + Month, air, na.action = rule)
    theirs <- lm(Ozone ~ Wind + Month, air, na.action = rule)
    stopifnot(identical(names(residuals(ours)), names(residuals(theirs))), identical(is.na(fitted(ours)), is.na(fitted(theirs))))
}
says("missing values in object", rq_exact(Ozone ~ Wind, air, na.action = na.fail))
says("missing values in object", lm(Ozone ~ Wind, air, na.action = na.fail))
says("na.action is", rq_exact(Ozone ~ Wind, air, na.action = na.pass))
says("missing values in object", { old <- options(na.action = "na.fail"); tryCatch(rq_exact(Ozone ~ Wind, air), finally = options(old)) })

# Contrasts: those of a factor, of the session, of the formula and of the call.
breaks <- warpbreaks
contrasts(breaks$tension) <- contr.sum(3)
like_lm(breaks ~ tension, breaks)
like_lm(breaks ~ wool * tension, breaks)
like_lm(breaks ~ C(tension, contr.sum), warpbreaks)
like_lm(breaks ~ wool + C(tension, contr.helmert), warpbreaks)
for (set in list(c("contr.sum", "contr.poly"), c("contr.helmert", "contr.poly"), c("contr.SAS", "contr.poly"))) {
    old <- options(contrasts = set)
    like_lm(breaks ~ wool * tension, warpbreaks)
    options(old)
}
like_lm(breaks ~ wool + tension, warpbreaks, contrasts = list(tension = "contr.sum"))
like_lm(breaks ~ wool + tension, warpbreaks, contrasts = list(wool = contr.helmert, tension = contr.sum))
like_lm(breaks ~ tension, warpbreaks, contrasts = list(tension = contr.treatment(3, base = 2)))
summed <- rq_exact(breaks ~ wool * tension, warpbreaks, contrasts = "sum")
agrees(summed, coef(suppressWarnings(rq(breaks ~ wool * tension, data = warpbreaks, contrasts = list(wool = "contr.sum", tension = "contr.sum")))),
    model.matrix(breaks ~ wool * tension, warpbreaks, list(wool = "contr.sum", tension = "contr.sum")), warpbreaks$breaks)
# Columns of contr.poly have roots, and two of 15 digits outgrow the program: rounded ones don't.
says("digits = 6 in the call rounds them", rq_exact(breaks ~ ordered(tension) + wool, warpbreaks))
ordered_fit <- like_lm(breaks ~ ordered(tension) + wool, warpbreaks, digits = 7)
stopifnot(any(grepl("ordered(tension) by contr.poly", capture.output(print(ordered_fit)), fixed = TRUE)))
stopifnot(all.equal(unname(predict(ordered_fit, warpbreaks[c(1, 30, 54), ])), unname(fitted(ordered_fit)[c(1, 30, 54)])))
says("beside a smooth all factors have the same contrasts", rq_exact(breaks ~ qss(x, 1) + wool + tension, transform(breaks, x = seq_along(breaks))))
# A term that R codes otherwise than the program does has R's columns.
like_lm(len ~ dose:supp + dose:factor(dose > 1), ToothGrowth)
like_lm(breaks ~ wool / tension, warpbreaks)
like_lm(breaks ~ 0 + tension %in% wool, warpbreaks)
like_lm(breaks ~ 0 + wool:tension, warpbreaks)

# A level "NA", an empty one, and one of blanks are levels in R; nothing but NA is missing.
states <- data.frame(y = c(3, 1, 4, 1, 5, 9, 2, 6), f = factor(c("NA", "ZA", "NA", "", "BW", "ZA", "", "BW")))
for (table in list(states, transform(states, f = as.character(f)), transform(states, f = factor(f, levels = c("ZA", "NA", "BW", ""))))) {
    stopifnot(like_lm(y ~ f, table)$records == 8)
}
like_lm(y ~ f, transform(states, f = factor(paste0(f, " "))))
# Numbers as levels keep R's order.
tens <- data.frame(y = c(3, 1, 4, 1, 5, 9, 2, 6, 5, 3), x = c(9, 10, 100, 9, 10, 100, 2, 2, -1, -1))
like_lm(y ~ factor(x), tens)
like_lm(y ~ f, transform(tens, f = factor(x)))
like_lm(y ~ factor(f), transform(tens, f = factor(x, levels = c(100, 9, 10, 2, -1))))
like_lm(y ~ f, transform(tens, f = as.character(x)))
old <- options(contrasts = c("contr.helmert", "contr.poly"))
like_lm(y ~ factor(x), tens)
options(old)

# Arguments that have no answer are errors, and the ones of rq that say what is done anyway are taken.
fit <- rq_exact(dist ~ speed, cars)
two <- rq_exact(dist ~ speed, cars, c(0.25, 0.75))
says("se = \"boot\" has no answer", summary(fit, se = "boot"))
says("summary takes no argument hs =", summary(fit, hs = TRUE))
stopifnot(identical(coef(summary(fit, se = "rank")), coef(summary(fit))))
says("interval = \"confidence\" has no answer", predict(fit, cars, interval = "confidence"))
says("predict takes no argument level =", predict(fit, cars, level = 0.9))
says("no test = \"Wald\"", anova(fit, rq_exact(dist ~ 1, cars), test = "Wald"))
says("no score = \"tau\"", anova(fit, rq_exact(dist ~ 1, cars), score = "tau"))
says("at several quantiles (0.25, 0.75)", anova(rq_exact(dist ~ speed, cars, 0.25), rq_exact(dist ~ speed, cars, 0.75)))
says("at several quantiles", anova(two))
says("no argument joint =", anova(fit, rq_exact(dist ~ 1, cars), joint = FALSE))
for (call in list(quote(coef(fit, digits = 3)), quote(residuals(fit, type = "deviance")), quote(fitted(fit, tau = 1)), quote(confint(fit, se = "iid")))) {
    stopifnot(fault_of(eval(call)) != "no error")
}
says("unused argument (method = \"fn\")", rq_exact(dist ~ speed, cars, method = "fn"))

# What is_unique and other_coef say agree, and other coefficients have the same loss.
even <- rq_exact(y ~ 1, data.frame(y = c(1, 2, 4, 8)), c(0.25, 0.3, 0.5))
stopifnot(identical(is_unique(even), c(FALSE, TRUE, FALSE)), identical(is.na(unname(drop(other_coef(even)))), c(FALSE, TRUE, FALSE)))
# The median of 1, 2, 4, 8 is any number from 2 to 4, and the lower quartile any from 1 to 2.
stopifnot(setequal(c(coef(even)[3], other_coef(even)[3]), c(2, 4)), setequal(c(coef(even)[1], other_coef(even)[1]), c(1, 2)))
for (case in list(list(eruptions ~ waiting, faithful), list(weight ~ feed, chickwts), list(extra ~ group, sleep), list(breaks ~ wool, warpbreaks))) {
    found <- rq_exact(case[[1]], case[[2]])
    other <- other_coef(found)
    stopifnot(identical(anyNA(other), !isFALSE(is_unique(found))))
    if (!anyNA(other)) {
        residuals <- model.response(model.frame(case[[1]], case[[2]])) - model.matrix(case[[1]], case[[2]]) %*% other
        stopifnot(all.equal(sum(abs(residuals)) / 2, found$loss), !isTRUE(all.equal(other, coef(found))))
    }
}

# Names, and messages on what is no table.
stopifnot(identical(names(coef(rq_exact(dist ~ 0 + speed, cars))), names(coef(rq(dist ~ 0 + speed, data = cars)))))
stopifnot(identical(dimnames(coef(summary(fit))), dimnames(coef(suppressWarnings(summary(rq(dist ~ speed, data = cars), se = "rank"))))))
stopifnot(identical(rownames(coef(summary(rq_exact(dist ~ 0 + speed, cars)))), "speed"), identical(rownames(confint(rq_exact(dist ~ 0 + speed, cars))), "speed"))
theirs <- coef(suppressWarnings(summary(rq(stack.loss ~ ., data = stackloss), se = "rank", interp = FALSE)))
ours <- coef(summary(rq_exact(stack.loss ~ ., stackloss)))
stopifnot(is.matrix(ours), identical(rownames(ours), rownames(theirs)), all.equal(ours[, 1], theirs[, 1]), is.list(coef(summary(two))), length(coef(summary(two))) == 2)
stopifnot(any(grepl("of the level 90 % by Student's with 48 degrees of freedom, with the critical value", capture.output(print(summary(fit))))))
stopifnot(any(grepl("Rank intervals with the critical value 46/17", capture.output(print(summary(fit, crit = "46/17"))))))
says("the table is empty: it has 0 records", rq_exact(dist ~ speed, cars[0, ]))
says("~speed has no response", rq_exact(~speed, cars))
says("read the file first, as read.csv(\"cars.csv\")", rq_exact(dist ~ speed, "cars.csv"))
says("data is a matrix", rq_exact(dist ~ speed, as.matrix(cars)))
says("There is no column 'dost'; did you mean 'dist'?", rq_exact(dost ~ speed, cars))
says("There is no column 'dost'; did you mean 'dist'?", rq_exact(log(dost) ~ speed, cars))
says("There is no column 'sped'; did you mean 'speed'?", rq_exact(dist ~ log(sped), cars))
says("the new records have no column 'speed'", predict(fit, data.frame(sped = 1)))

# Names that the program's formulas can't have.
odd <- data.frame(`größe` = c(3, 1, 4, 1, 5, 9, 2, 6, 5, 3, 5, 8), `my x` = c(2, 7, 1, 8, 2, 8, 1, 9, 6, 5, 4, 3), `2nd` = c(1, 6, 1, 8, 0, 3, 3, 9, 8, 8, 7, 4),
    `a"b\\c` = c(5, 7, 7, 2, 1, 5, 6, 6, 4, 9, 0, 1), weiß = factor(rep(c("ä", "ö", "ü", "<1.1>"), 3)), `my w` = rep(1:2, 6), check.names = FALSE)
like_lm(größe ~ ., odd[1:4])
like_lm(größe ~ `my x` * weiß, odd)
like_lm(größe ~ `2nd` + I(2 * `my x`) + I(`my x`^2), odd)
like_lm(größe ~ `my x`:`2nd` + offset(`my w`), odd)
stopifnot(identical(coef(rq_exact(größe ~ `my x`, odd, weights = "my w")), coef(rq_exact(größe ~ `my x`, odd, weights = `my w`))))
agrees(rq_exact(größe ~ `my x`, odd, weights = `my w`), coef(rq(größe ~ `my x`, data = odd, weights = `my w`)))
says("'my y'", rq_exact(`my y` ~ `my x`, odd))
says("is no column of numbers; it has \"u\"", rq_exact(größe ~ offset(`my x`), replace(odd, "my x", list(c("u", 2:12)))))

# What the program's formulas lack is worked out by R, with a note, and the names are R's; digits rounds such columns.
like_lm(dist ~ scale(speed), cars)
like_lm(dist ~ I(1 / speed), cars)
like_lm(dist ~ I(speed > 15), cars)
like_lm(dist ~ speed**2, cars)
like_lm(log(dist) ~ sqrt(speed) + speed, cars)
rounded_fit <- like_lm(dist ~ poly(speed, 2), cars, digits = 7)
stopifnot(any(grepl("poly(speed, 2) to 7 decimals, moved by", capture.output(print(rounded_fit)), fixed = TRUE)))
stopifnot(any(grepl("worked out by R, as columns of 15 digits: log(dist), sqrt(speed)", capture.output(print(rq_exact(log(dist) ~ sqrt(speed), cars))), fixed = TRUE)))
# Predictions work such columns out by the knots and centres of the fit.
library(splines)
for (formula in list(dist ~ poly(speed, 2), dist ~ bs(speed, df = 4), dist ~ ns(speed, df = 3), dist ~ scale(speed), log(dist) ~ log(speed))) {
    new <- data.frame(speed = c(5, 12.5, 24))
    theirs <- suppressWarnings(rq(formula, 0.3, cars))
    stopifnot(all.equal(predict(rq_exact(formula, cars, 0.3, digits = 7), new), predict(theirs, new), tolerance = 1e-4))
}

# Messages on a limit name it and what would fit.
says("the program takes 16,384 at most: subset = sample(16385, 16384)", rq_exact(y ~ 1, data.frame(y = 1:16385)))
long <- data.frame(y = c(1e30, 1e-30, 3.3e-9, 7), x = c(1e25, 1e-22, 3.1, 1 / 3))
says("numerators and denominators of 38 digits", rq_exact(y ~ x, long))
says("in 1 column of random numbers 15 digits fit", rq_exact(y ~ x, long))
says("The option tested is no such number", rank_test_exact(y ~ x, data.frame(y = 1:4, x = c(1, 3, 2, 2)), integer()))
# A program that knows other options.
other <- tempfile("program")
writeLines(c("#!/bin/sh", "cat > /dev/null", "echo 'quantreg: usage: BadOption' >&2", "exit 2"), other)
Sys.chmod(other, "755")
says("doesn't know one of the options --formula, --lo, --hi, --contrasts: is it of another version?", rq_exact(dist ~ speed, cars, program = other))

# Pictures: labels with units, labels that stand apart, what is left out, and something on each picture.
inner <- asNamespace("quantreg.exact")
measured <- cars
attr(measured$dist, "units") <- "ft"
attr(measured$speed, "units") <- "mph"
curve <- rq_exact(dist ~ speed, measured, c(0.25, 0.5, 0.75))
labels <- summary(curve)
stopifnot(
    identical(inner$axis_label(labels, "speed", labels$units), "ft per mph"), identical(inner$axis_label(labels, "(Intercept)", labels$units), "dist (ft)"),
    identical(inner$axis_label(labels, "speed", NULL), "dist per unit of speed"), identical(inner$apart(c(3, 1, 1.5), 1), c(3, 1, 2)),
    all.equal(labels$ols, coef(lm(dist ~ speed, cars))), grepl("^bars: rank intervals of the level 90 %", inner$bars_text(labels))
)
stopifnot(inherits(try(plot_fit(rq_exact(stack.loss ~ ., stackloss)), silent = TRUE), "try-error"))
if (capabilities("png")) {
    for (draw in list(
        function() plot(rq_exact(dist ~ speed, cars, -1), alpha = 0.1, ols = TRUE), function() plot(labels), function() plot_fit(curve),
        function() plot_fit(rq_exact(dist ~ speed + I(speed^2), cars, -1)), function() plot_fit(rq_exact(len ~ dose * supp, ToothGrowth)),
        function() plot_fit(rq_exact(breaks ~ wool + tension, warpbreaks)), function() plot_fit(rq_exact(log(dist) ~ ns(speed, 3), cars, digits = 6))
    )) {
        file <- tempfile(fileext = ".png")
        grDevices::png(file, 800, 600)
        draw()
        grDevices::dev.off()
        stopifnot(file.size(file) > 3000)
    }
}
cat("all of it holds\n")
