# Calls as users of rq write them, by rq itself and by rq_exact, at three quantiles each: names and coefficients of both, and compare_rq's verdict.
#
#     QUANTREG=/path/to/quantreg Rscript calls.R [FILE]     writes the table to FILE, too
#
# It ends with status 1 where the names are others, or a fit is another one that is unique or has another loss. Columns of long decimals that
# outgrow the program are rounded by `digits`, in both: then rq has the design of the exact fit.
suppressPackageStartupMessages({
    library(quantreg.exact)
    library(splines)
})
rq <- quantreg::rq
data(engel, package = "quantreg")
data(barro, package = "quantreg")
data(uis, package = "quantreg")
data(Mammals, package = "quantreg")
data(CobarOre, package = "quantreg")
weight_of_cars <- rep(c(1, 2.5), 25)
summed <- warpbreaks
contrasts(summed$tension) <- contr.sum(3)
words <- setNames(transform(mtcars, am = am == 1)[c("mpg", "wt", "am", "gear")], c("Verbrauch in Meilen", "Größe", "2nd", "gear"))

# The words of each call behind its name.
calls <- alist(
    rq(foodexp ~ income, data = engel, subset = income < 2000),
    rq(log10(foodexp) ~ log10(income), data = engel, digits = 8),
    rq(foodexp ~ I(1 / income), data = engel, digits = 8),
    rq(dist ~ speed, data = cars, weights = weight_of_cars),
    rq(dist ~ speed, data = cars, weights = 1 / speed, subset = dist > 5, digits = 8),
    rq(dist ~ poly(speed, 2), data = cars, digits = 8),
    rq(dist ~ bs(speed, df = 4), data = cars, digits = 6),
    rq(dist ~ ns(speed, df = 3), data = cars, digits = 6),
    rq(dist ~ scale(speed), data = cars),
    rq(dist ~ 0 + speed, data = cars),
    rq(breaks ~ wool * tension, data = summed),
    rq(breaks ~ wool + C(tension, contr.helmert), data = warpbreaks),
    rq(breaks ~ wool / tension, data = warpbreaks),
    rq(breaks ~ wool + tension, data = warpbreaks, contrasts = list(wool = "contr.sum", tension = "contr.sum")),
    rq(len ~ supp + ordered(dose), data = ToothGrowth, digits = 6),
    rq(mpg ~ factor(carb), data = mtcars, subset = !carb %in% c(6, 8)),
    rq(mpg ~ I(wt > 3) * factor(gear), data = mtcars),
    rq(Ozone ~ Wind + factor(Month), data = airquality, na.action = na.exclude),
    rq(`Verbrauch in Meilen` ~ Größe + `2nd`, data = words),
    rq(mpg ~ (wt + hp + am)^2 - wt:am, data = mtcars),
    rq(sqrt(count) ~ spray, data = InsectSprays, digits = 8),
    rq(I(Sepal.Length - Petal.Length) ~ Species, data = iris),
    rq(y.net ~ lgdp2 + mse2, data = barro, digits = 5),
    rq(Y ~ AGE + factor(TREAT) + factor(IV3), data = uis, subset = AGE > 20),
    rq(log(speed) ~ log(weight), data = Mammals, subset = speed > 20, digits = 8)
)
taus <- c(0.25, 0.5, 0.75)

# What a call comes to by both.
compare_call <- function(call) {
    digits <- call[["digits"]]
    plain <- call[names(call) != "digits"]
    theirs <- lapply(taus, function(tau) {
        one <- plain
        one$tau <- tau
        suppressWarnings(eval(one))
    })
    exact <- call
    exact[[1]] <- quote(rq_exact)
    exact$tau <- taus
    ours <- suppressWarnings(eval(exact))
    both <- call
    both[[1]] <- quote(compare_rq)
    both$tau <- taus
    verdicts <- suppressWarnings(eval(both))$summary$verdict
    found <- vapply(seq_along(taus), function(at) {
        difference <- max(abs(coef(ours)[, at] - coef(theirs[[at]])) / pmax(1, abs(coef(theirs[[at]]))))
        if (!identical(ours$names, names(coef(theirs[[at]])))) return("other names")
        if (difference <= (if (is.null(digits)) 1e-6 else 10^(3 - digits))) return("same")
        # A fit that isn't unique: compare_rq has both losses over the same design.
        if (startsWith(verdicts[at], "not unique")) "not unique" else sprintf("other by %.1e: %s", difference, verdicts[at])
    }, "")
    data.frame(call = gsub(" +", " ", deparse1(call)), records = ours$records, t(found), digits = if (is.null(digits)) "" else as.character(digits))
}

# A text in Markdown's marks of code, which backticks in it double.
as_code <- function(text) ifelse(grepl("`", text, fixed = TRUE), paste("``", text, "``"), paste0("`", text, "`"))

failing <- function(call) function(fault) data.frame(call = deparse1(call), records = NA, t(rep(sub("\n.*", "", conditionMessage(fault)), 3)), digits = "")
rows <- do.call(rbind, lapply(calls, function(call) tryCatch(compare_call(call), error = failing(call))))
found <- unlist(rows[c("X1", "X2", "X3")])
text <- c(
    "| call | records | 1/4 | 1/2 | 3/4 |", "|---|---|---|---|---|",
    sprintf("| %s | %s | %s | %s | %s |", as_code(rows$call), rows$records, rows$X1, rows$X2, rows$X3)
)
file <- commandArgs(trailingOnly = TRUE)
if (length(file)) writeLines(text, file[1])
fine <- found %in% c("same", "not unique")
if (!all(fine)) writeLines(text[-(1:2)][rowSums(matrix(!fine, ncol = 3)) > 0])
cat(sprintf("%d calls at %d quantiles each: %d fits the same, %d not unique with losses that agree, %d others\n", nrow(rows), length(taus), sum(found == "same"),
    sum(found == "not unique"), sum(!fine)))
quit(status = if (all(fine)) 0 else 1)
