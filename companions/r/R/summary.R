# Summaries with rank intervals.

# The critical value that is asked for: a fraction as it is given, else the one of the level by Student's or the normal distribution.
asked_critical <- function(fit, alpha, crit, tcrit) {
    if (!is.null(crit)) return(number_text(crit))
    critical_value(alpha, if (tcrit) fit$records - length(fit$names))
}

#' The coefficients with their rank intervals, at the quantiles of a fit, or at others where it is one of all quantiles.
#'
#' The critical value is a short fraction for the square of the t quantile with n - p degrees of freedom, as in summary.rq, or of the normal one
#' where tcrit is FALSE; or crit, as it stands. Of rq's ways to intervals se = "rank" with iid = TRUE may stand there; others have no answer.
summary.rq_exact <- function(object, alpha = 0.1, crit = NULL, tcrit = TRUE, tau = NULL, se = "rank", iid = TRUE, ...) {
    no_others(..., of = "summary")
    if (!identical(se, "rank")) stop("summary has rank intervals alone: se = \"", se, "\" has no answer here", call. = FALSE)
    if (!isTRUE(iid)) stop("rank intervals are those of errors that are identically distributed: iid = FALSE has no answer here", call. = FALSE)
    if (!is.null(tau) && !object$is_process) stop("other quantiles need a fit of all of them, with tau = -1", call. = FALSE)
    if (object$is_process && is.null(tau)) tau <- c("1/4", "1/2", "3/4")
    at <- if (is.null(tau)) object$tau else asked_quantiles(tau)$tau
    columns <- if (is.null(tau)) seq_along(at) else segments_at(object, fraction_value(at))
    is_given <- !is.null(crit)
    crit <- asked_critical(object, alpha, crit, tcrit)
    found <- Map(function(tau, column) {
        rank_intervals(object, tau, crit, as.matrix(object$exact)[, column])
    }, at, columns)
    tables <- Map(function(it, column) {
        ends <- matrix(fraction_value(it$ends), ncol = 2, dimnames = list(NULL, c("lower bd", "upper bd")))
        rownames(ends) <- object$names
        cbind(coefficients = as.matrix(object$coefficients)[, column], ends)
    }, found, columns)
    notes <- c(object$computed, uniqueness_notes(object), unlist(lapply(found, `[[`, "notes"), use.names = FALSE))
    tables <- unname(tables)
    structure(list(
        call = object$call, formula = object$formula, names = object$names, tau = at, alpha = if (is_given) NA else alpha, crit = crit,
        df = if (tcrit) object$records - length(object$names), tables = tables,
        coefficients = if (length(tables) == 1) tables[[1]] else stats::setNames(tables, paste("tau=", at)),
        exact = unname(lapply(found, `[[`, "ends")), numeric = numeric_columns(object), ols = least_squares(object), units = object$units, notes = notes
    ), class = "summary.rq_exact")
}

#' The matrix of a summary's coefficients and rank intervals, as summary.rq has it, or a list of them by quantile.
coef.summary.rq_exact <- function(object, ...) object$coefficients

# What the critical value of a summary is: that of a level, or a given one.
level_text <- function(x) {
    value <- paste0("the critical value ", x$crit, ", which is ", format(fraction_value(x$crit), digits = 6))
    if (is.na(x$alpha)) return(paste0("with ", value))
    of <- if (is.null(x$df)) "the normal distribution" else paste0("Student's with ", x$df, " degrees of freedom")
    paste0("of the level ", format(100 * (1 - x$alpha)), " % by ", of, ", with ", value)
}

print.summary.rq_exact <- function(x, digits = max(5, getOption("digits") - 2), ...) {
    cat("Call: ")
    print(x$call)
    for (at in seq_along(x$tau)) {
        cat("\ntau:", x$tau[at], "\n\nCoefficients:\n")
        print(x$tables[[at]], digits = digits)
    }
    cat("", strwrap(paste("Rank intervals", level_text(x)), 110, exdent = 2), sep = "\n")
    print_notes(x$notes)
    invisible(x)
}

#' The tables of a summary below each other, with the quantile and the column of each row and the ends as fractions.
as.data.frame.summary.rq_exact <- function(x, row.names = NULL, optional = FALSE, ...) {
    no_others(..., of = "as.data.frame")
    rows <- Map(function(tau, table, exact) {
        data.frame(
            tau = fraction_value(tau), term = x$names, estimate = table[, 1], lower = table[, 2], upper = table[, 3],
            exact_lower = exact[, 1], exact_upper = exact[, 2], row.names = NULL
        )
    }, x$tau, x$tables, x$exact)
    do.call(rbind, unname(rows))
}

#' The rank intervals of a level: a matrix, or a list of them by quantile.
confint.rq_exact <- function(object, parm = object$names, level = 0.95, ...) {
    found <- summary(object, alpha = 1 - level, ...)
    label <- paste(format(100 * c(1 - level, 1 + level) / 2, trim = TRUE, digits = 3), "%")
    tables <- lapply(found$tables, function(table) {
        matrix(table[, 2:3], ncol = 2, dimnames = list(object$names, label))[parm, , drop = FALSE]
    })
    for (note in found$notes) if (!note %in% c(object$computed, uniqueness_notes(object))) warning(note, call. = FALSE)
    if (length(tables) == 1) tables[[1]] else stats::setNames(tables, paste("tau=", found$tau))
}
