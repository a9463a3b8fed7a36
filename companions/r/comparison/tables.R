# Puts R's rq beside the exact fit on tables of R's datasets, at three quantiles each, and prints a table of the results.
#
#     QUANTREG=/path/to/quantreg Rscript tables.R [FILE]     writes the results to FILE, too
#
# It ends with status 1 where a difference of coefficients beyond 1e-6 has no name (a fit that isn't unique, whose losses
# agree within 1e-9), or where fewer than 30 tables are compared. A table whose numbers outgrow the program is told as such.
library(quantreg.exact)

# A factor whose levels are numbers is read as numbers, and the formula makes it a factor.
with_numbers <- function(data, names) {
    data[names] <- lapply(data[names], function(column) as.numeric(as.character(column)))
    data
}

none <- NULL
cases <- list(
    list("stackloss", stackloss, stack.loss ~ ., none),
    list("cars", cars, dist ~ speed, none),
    list("cars, weighted", cars, dist ~ speed, "speed"),
    list("faithful", faithful, eruptions ~ waiting, none),
    list("mtcars", mtcars, mpg ~ wt + hp, none),
    list("mtcars, factors", mtcars, mpg ~ hp + factor(cyl) * factor(am), none),
    list("iris", iris, Sepal.Length ~ Petal.Length * Species, none),
    list("airquality", airquality, Ozone ~ Wind + Temp, none),
    list("women", women, weight ~ height, none),
    list("trees", trees, Volume ~ Girth + Height, none),
    list("swiss", swiss, Fertility ~ Agriculture + Education, none),
    list("longley", longley, Employed ~ GNP + Unemployed, none),
    list("attitude", attitude, rating ~ complaints + learning + raises, none),
    list("chickwts", chickwts, weight ~ feed, none),
    list("PlantGrowth", PlantGrowth, weight ~ group, none),
    list("InsectSprays", InsectSprays, count ~ spray, none),
    list("InsectSprays, no intercept", InsectSprays, count ~ 0 + spray, none),
    list("ToothGrowth", ToothGrowth, len ~ supp * dose, none),
    list("warpbreaks", warpbreaks, breaks ~ wool * tension, none),
    list("sleep", with_numbers(sleep, "group"), extra ~ factor(group), none),
    list("morley", morley, Speed ~ factor(Expt), none),
    list("rock", rock, area ~ peri + perm, none),
    list("pressure", pressure, pressure ~ temperature, none),
    list("quakes", quakes, mag ~ depth + stations, none),
    list("LifeCycleSavings", LifeCycleSavings, sr ~ pop15 + ddpi, none),
    list("USArrests", USArrests, Murder ~ Assault + UrbanPop, none),
    list("anscombe", anscombe, y1 ~ x1, none),
    list("attenu", attenu, accel ~ dist + mag, none),
    list("beaver1", beaver1, temp ~ time + activ, none),
    list("BOD", BOD, demand ~ Time, none),
    list("ChickWeight", with_numbers(as.data.frame(ChickWeight), "Diet"), weight ~ Time * factor(Diet), none),
    list("CO2", as.data.frame(CO2), uptake ~ conc + Type * Treatment, none),
    list("DNase", as.data.frame(DNase), density ~ conc, none),
    list("Orange", as.data.frame(Orange), circumference ~ age, none),
    list("Loblolly", as.data.frame(Loblolly), height ~ age, none),
    list("Puromycin", Puromycin, rate ~ conc + state, none),
    list("infert", infert, age ~ parity + education, none),
    list("npk", with_numbers(npk, c("N", "P", "K")), yield ~ N * P * K, none),
    list("OrchardSprays", OrchardSprays, decrease ~ treatment, none),
    list("randu", randu, z ~ x + y, none),
    list("Theoph", as.data.frame(Theoph), conc ~ Time + Wt, none),
    list("Indometh", as.data.frame(Indometh), conc ~ time, none)
)

taus <- c("1/4", "1/2", "3/4")

# The rows of one case: what was compared, or the fault line in its place. R's warnings that a fit may not be unique are left
# out, for the verdict says more.
compare_case <- function(case) {
    at <- data.frame(table = case[[1]], formula = deparse1(case[[3]]), tau = taus)
    # As values, for a table may have a column of the name that stands for its weights here.
    found <- tryCatch(suppressWarnings(do.call(compare_rq, list(case[[3]], case[[2]], taus, weights = case[[4]]))), quantreg_error = identity)
    if (inherits(found, "quantreg_error")) {
        return(cbind(at, records = NA, difference = NA, loss_exact = NA, loss_rq = NA, verdict = paste0("`", found$line, "`")))
    }
    cbind(at, records = found$fit$records, found$summary[-1])
}

results <- do.call(rbind, lapply(cases, compare_case))
named <- results$verdict %in% c("same", "not unique: both losses agree")
done <- tapply(named, results$table, all)
row_text <- function(row) {
    number <- function(value, form) if (is.na(value)) "" else sprintf(form, as.numeric(value))
    sprintf(
        "| %s | `%s` | %s | %s | %s | %s | %s |", row[["table"]], row[["formula"]], row[["tau"]], number(row[["records"]], "%.0f"),
        number(row[["difference"]], "%.1e"), number(as.numeric(row[["loss_rq"]]) - as.numeric(row[["loss_exact"]]), "%.1e"), row[["verdict"]]
    )
}
text <- c(
    "| table | formula | quantile | records | greatest difference of a coefficient | loss of rq less the exact one | |",
    "|---|---|---|---|---|---|---|",
    vapply(seq_len(nrow(results)), function(at) row_text(results[at, ]), "")
)
words <- commandArgs(trailingOnly = TRUE)
if (length(words)) writeLines(text, words[1])
unnamed <- results[!named & is.finite(results$difference), ]
if (nrow(unnamed)) print(unnamed)
cat(sprintf(
    "%d tables compared at %d quantiles each: %d fits the same within 1e-6, %d not unique with losses that agree within 1e-9, %d others; %d without a report\n",
    sum(done), length(taus), sum(results$verdict == "same"), sum(results$verdict == "not unique: both losses agree"), nrow(unnamed),
    sum(is.na(results$difference))
))
quit(status = if (nrow(unnamed) || sum(done) < 30) 1 else 0)
