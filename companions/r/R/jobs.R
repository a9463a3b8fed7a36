# The jobs beside `process`.

# A rank job's answer with notes, which are warned of, behind what was worked out of the formula.
with_notes <- function(answer, notes, computed = NULL) {
    for (note in notes) warning(note, call. = FALSE)
    c(answer, list(notes = c(computed, notes)))
}

#' The Wilcoxon scores of a formula by the job ranks.
ranks_exact <- function(formula, data = NULL, weights = NULL, contrasts = NULL, pivots = NULL, program = NULL, subset = NULL, offset = NULL,
                        na.action = NULL, digits = NULL) {
    model <- model_of_call(match.call(), parent.frame(), formula, data, contrasts, pivots, program, na.action, digits)
    found <- rescued("process", list(exact = report_of(model, "ranks")$wilcoxon), function(fault) {
        need_gmp(fault)
        report <- report_of(model, "process", list(lo = "0", hi = "1"))
        list(exact = as.character(wilcoxon_of(report)), note = rescue_note(fault))
    })
    with_notes(list(ranks = fraction_value(found$exact), exact = found$exact), c(found$note, ties_notes(model)), model$computed)
}

#' The predictions of the records whose response is missing, by the job predict: the steps over the quantiles from lo to hi of each,
#' as they are and rearranged so that they never fall.
predictions_exact <- function(formula, data = NULL, lo = 0, hi = 1, weights = NULL, contrasts = NULL, pivots = NULL, program = NULL, subset = NULL,
                              offset = NULL, digits = NULL) {
    # The records to be predicted miss their response, and so no rule for missing cells is asked for.
    model <- model_of_call(match.call(), parent.frame(), formula, data, contrasts, pivots, program, "na.omit", digits, predicts = TRUE)
    found <- rescued("predict:", list(exact = report_of(model, "predict", list(lo = lo, hi = hi))$predictions), function(fault) {
        need_gmp(fault)
        list(exact = exact_predictions(model, lo, hi), note = rescue_note(fault))
    })
    numbers <- c("lo", "hi", "value")
    steps <- found$exact
    steps[numbers] <- lapply(found$exact[numbers], fraction_value)
    with_notes(list(steps = steps, exact = found$exact), found$note, model$computed)
}

#' The fits at one quantile that minimise the check loss plus lambda times the sum of the absolute coefficients but the intercept's, for
#' every lambda from lo to hi, by the job path. Lambda is above 0, and half of what rq's lasso calls so.
path_exact <- function(formula, data = NULL, tau = 0.5, lo, hi = lo, weights = NULL, contrasts = NULL, pivots = NULL, program = NULL, subset = NULL,
                       offset = NULL, na.action = NULL, digits = NULL) {
    model <- model_of_call(match.call(), parent.frame(), formula, data, contrasts, pivots, program, na.action, digits)
    report <- report_of(model, "path", list(tau = tau, lo = lo, hi = hi))
    rows <- lapply(report$segments, function(it) c(it$lo, it$hi, it$loss, it$coef))
    exact <- as.data.frame(do.call(rbind, rows))
    names(exact) <- c("lo", "hi", "loss_lo", "loss_hi", report$names)
    segments <- exact
    segments[] <- lapply(exact, fraction_value)
    list(segments = segments, exact = exact)
}

# The test of the columns with these numbers by the job test, or by gmp: texts, the names of the columns, and a note.
tested_by <- function(model, tested) {
    rescued(c("test", "process", "full"), report_of(model, "test", list(tested = tested)), function(fault) {
        need_gmp(fault)
        names <- report_of(model, "process", list(lo = "1/2", hi = "1/2"))$names
        c(exact_rank_test(model, as.integer(tested)), list(names = names, tested = as.integer(tested), note = rescue_note(fault)))
    })
}

# The columns of a design by their numbers, from numbers or names.
column_numbers <- function(model, tested) {
    if (!is.character(tested)) return(tested)
    names <- report_of(model, "process", list(lo = "1/2", hi = "1/2"))$names
    found <- match(tested, names)
    if (anyNA(found)) stop("the design has no column '", tested[is.na(found)][1], "'", close_to(tested[is.na(found)][1], names), call. = FALSE)
    sort(found)
}

#' The rank test that columns of the design, by their names or by their numbers, counted from 1 and rising, have coefficients 0.
#'
#' The statistic over the number of tested columns is what anova(.., test = "rank", score = "wilcoxon") calls F value. Where responses are tied it
#' depends on the order of the records: with `orders` the test is made in so many orders, of which the first is that of the table.
rank_test_exact <- function(formula, data = NULL, tested, weights = NULL, contrasts = NULL, pivots = NULL, program = NULL, orders = 1, subset = NULL,
                            offset = NULL, na.action = NULL, digits = NULL) {
    model <- model_of_call(match.call(), parent.frame(), formula, data, contrasts, pivots, program, na.action, digits)
    tested <- column_numbers(model, tested)
    exact <- tested_by(model, tested)
    scores <- structure(fraction_value(exact$scores), names = exact$names[exact$tested])
    statistic <- fraction_value(exact$statistic)
    answer <- list(
        scores = scores, statistic = statistic, columns = length(scores),
        p_value = stats::pchisq(statistic, length(scores), lower.tail = FALSE), exact = exact[c("scores", "statistic")]
    )
    if (orders > 1) {
        others <- vapply(seq_len(orders - 1), function(at) {
            mixed <- model
            mixed$data <- model$data[sample(nrow(model$data)), , drop = FALSE]
            fraction_value(tested_by(mixed, tested)$statistic)
        }, 0)
        answer$orders <- c(statistic, others)
        answer$range <- range(answer$orders)
    }
    with_notes(answer, c(exact$note, if (orders == 1) ties_notes(model)), model$computed)
}

#' The rank tests of nested fits against the largest of them, or of one fit against its intercept.
#'
#' The F value is the statistic over the number of tested columns, as in anova(.., test = "rank", score = "wilcoxon") of quantreg. Its other
#' tests have no answer: of fits at several quantiles it tests by Wald that their slopes are the same.
anova.rq_exact <- function(object, ..., test = "rank", score = "wilcoxon") {
    if (!identical(test, "rank")) stop("anova has the test \"rank\" alone, and no test = \"", test, "\"", call. = FALSE)
    if (!identical(score, "wilcoxon")) stop("anova has the score \"wilcoxon\" alone, and no score = \"", score, "\"", call. = FALSE)
    fits <- list(object, ...)
    others <- !vapply(fits, inherits, NA, "rq_exact")
    if (any(others)) stop("anova takes fits by rq_exact", if (any(nzchar(names(fits)[others]))) paste0(", and no argument ", names(fits)[others][1], " ="), call. = FALSE)
    levels <- unique(unlist(lapply(fits, function(fit) if (fit$is_process) "all" else fraction_value(fit$tau))))
    if (length(levels) > 1) {
        stop("the fits are at several quantiles (", some_of(levels), "): anova tests nested fits at one, and no equality of slopes", call. = FALSE)
    }
    fits <- fits[order(-vapply(fits, function(fit) length(fit$names), 0L))]
    large <- fits[[1]]
    smaller <- if (length(fits) == 1) list("(Intercept)") else lapply(fits[-1], `[[`, "names")
    if (length(fits) == 1 && !"(Intercept)" %in% large$names) stop("one fit is tested against its intercept, which it lacks", call. = FALSE)
    tests <- lapply(smaller, function(names) {
        if (!all(names %in% large$names) || length(names) == length(large$names)) stop("the fits are not nested by the names of their columns", call. = FALSE)
        tested_by(large, which(!large$names %in% names))
    })
    for (fit in fits) {
        if (fit$records != large$records || !identical(fit$formula[[2]], large$formula[[2]])) stop("the fits are of other records or responses", call. = FALSE)
    }
    for (note in unique(c(unlist(lapply(tests, `[[`, "note")), ties_notes(large)))) warning(note, call. = FALSE)
    df <- vapply(tests, function(it) length(it$tested), 0L)
    rest <- large$records - length(large$names)
    value <- fraction_value(vapply(tests, `[[`, "", "statistic")) / df
    table <- data.frame(df, rest, value, stats::pf(value, df, rest, lower.tail = FALSE))
    dimnames(table) <- list(seq_along(df), c("Df", "Resid Df", "F value", "Pr(>F)"))
    of <- vapply(smaller, function(names) paste(names, collapse = " + "), "")
    heading <- c("Exact rank tests by Wilcoxon scores\n", paste0("Model ", seq_along(of), ": ", of, "\n"), paste0("against: ", deparse1(large$formula), "\n"))
    structure(table, heading = heading, class = c("anova", "data.frame"))
}
