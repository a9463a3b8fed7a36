# The fit, as users of R know it.

# Named texts or doubles of one value for each column, or a matrix with a column for each quantile.
by_column <- function(values, names, labels) {
    values <- matrix(values, length(names), dimnames = list(names, labels))
    # A matrix of one row and one column would lose both names.
    if (ncol(values) == 1) stats::setNames(values[, 1], names) else values
}

# The quantiles that were asked for, as texts, and whether they are all of them, which -1 means as in rq.
asked_quantiles <- function(tau) {
    text <- vapply(tau, number_text, "")
    values <- suppressWarnings(fraction_value(text))
    if (length(values) == 1 && isTRUE(values[[1]] == -1)) return(list(all = TRUE, tau = "0"))
    if (!length(text) || anyNA(values) || any(values < 0 | values > 1)) {
        stop("a quantile is a number from 0 to 1, and -1 alone stands for all of them: tau is ", some_of(text, 8), call. = FALSE)
    }
    list(all = FALSE, tau = unname(text))
}

# Ends with an error where a call has arguments that its function doesn't take.
no_others <- function(..., of) {
    if (!...length()) return(invisible())
    names <- ...names()
    named <- names[!is.na(names) & nzchar(names)]
    told <- if (length(named)) paste0(named, " =", collapse = ", ") else paste(...length(), "more")
    stop(of, " takes no argument ", told, call. = FALSE)
}

#' The exact fit of a formula at one quantile or several, or at all of them where tau is -1.
#'
#' weights, subset and offset are looked up in the data and then where the formula was made, as in lm.
rq_exact <- function(formula, data = NULL, tau = 0.5, weights = NULL, contrasts = NULL, pivots = NULL, program = NULL, subset = NULL, offset = NULL,
                     na.action = NULL, digits = NULL) {
    call <- match.call()
    # rq has the quantiles in front of the data.
    if ((is.numeric(data) || is.character(data) && all(is_number_text(data))) && is.null(dim(data))) {
        tables <- if (!missing(tau)) tau
        tau <- data
        data <- tables
    }
    asked <- asked_quantiles(tau)
    fit <- c(list(call = call), model_of_call(call, parent.frame(), formula, data, contrasts, pivots, program, na.action, digits))
    ends <- if (asked$all) list(c("0", "1")) else lapply(asked$tau, rep, 2)
    reports <- lapply(ends, function(at) report_of(fit, "process", list(lo = at[1], hi = at[2])))
    fit_with(fit, parts_of(reports, asked))
}

# The model of a call, whose arguments are as for rq_exact.
model_of_call <- function(call, caller, formula, data, contrasts, pivots, program, na.action, digits, predicts = FALSE) {
    formula <- stats::as.formula(formula, caller)
    data <- data_of(data)
    model_of(formula, data, looked_up(call, formula, data, caller), contrasts, pivots, program, na.action, digits, predicts)
}

# A fit of a model and the parts of its reports.
fit_with <- function(model, parts) structure(c(model[setdiff(names(model), names(parts))], parts), class = "rq_exact")

# What a fit has of its reports.
parts_of <- function(reports, asked) {
    segments <- if (asked$all) reports[[1]]$segments else lapply(reports, function(report) report$segments[[1]])
    names <- reports[[1]]$names
    labels <- if (asked$all) NULL else paste("tau=", asked$tau)
    exact <- vapply(segments, `[[`, character(length(names)), "coef")
    loss <- vapply(segments, function(it) it$loss[1], "")
    c(reports[[1]][c("records", "dropped", "names")], list(
        is_process = asked$all, tau = if (asked$all) vapply(segments, `[[`, "", "lo") else asked$tau, segments = segments,
        exact = by_column(exact, names, labels), coefficients = by_column(fraction_value(c(exact)), names, labels),
        exact_loss = loss, loss = fraction_value(loss)
    ))
}

#' The coefficients, as doubles or, with exact = TRUE, as fractions in text.
coef.rq_exact <- function(object, exact = FALSE, ...) {
    no_others(..., of = "coef")
    if (exact) object$exact else object$coefficients
}

residuals.rq_exact <- function(object, ...) {
    no_others(..., of = "residuals")
    checked_residuals(object)$residuals
}

fitted.rq_exact <- function(object, ...) {
    no_others(..., of = "fitted")
    checked_residuals(object)$fitted
}

nobs.rq_exact <- function(object, ...) object$records

formula.rq_exact <- function(x, ...) x$formula

# The columns of a process's matrix of coefficients that hold at these quantiles.
segments_at <- function(fit, tau) findInterval(tau, fraction_value(fit$tau))

#' Predictions of new records at the quantiles of a fit, or, of a fit of all quantiles, at those asked for or as functions of the quantile.
#'
#' Of rq's other arguments interval = "none" and type = "none" may stand there: others have no answer.
predict.rq_exact <- function(object, newdata, tau = NULL, stepfun = FALSE, rearranged = FALSE, interval = "none", type = "none", ...) {
    no_others(..., of = "predict")
    if (!identical(interval, "none")) stop("predict has no intervals: interval = \"", interval, "\" has no answer here", call. = FALSE)
    if (!identical(type, "none")) stop("type = \"", type, "\" has no answer here", call. = FALSE)
    design <- if (missing(newdata)) design_of(object) else new_design(object, newdata)
    values <- design$x %*% as.matrix(object$coefficients) + design$offset
    if (!object$is_process) {
        if (stepfun || rearranged || !is.null(tau)) stop("steps and other quantiles need a fit of all of them, with tau = -1", call. = FALSE)
        return(if (ncol(values) == 1) values[, 1] else values)
    }
    breaks <- fraction_value(object$tau)
    widths <- diff(c(breaks, 1))
    steps <- lapply(seq_len(nrow(values)), function(row) {
        order <- if (rearranged) order(values[row, ]) else seq_along(breaks)
        stats::stepfun(cumsum(widths[order])[-length(breaks)], values[row, order])
    })
    if (stepfun) return(if (length(steps) == 1) steps[[1]] else steps)
    if (is.null(tau)) return(values)
    tau <- fraction_value(asked_quantiles(tau)$tau)
    found <- matrix(vapply(steps, function(it) it(tau), tau), ncol = length(tau), byrow = TRUE, dimnames = list(rownames(values), paste("tau=", tau)))
    if (length(tau) == 1) found[, 1] else found
}

#' The coefficients as a data frame: a row for each column and quantile, or segment.
as.data.frame.rq_exact <- function(x, row.names = NULL, optional = FALSE, ...) {
    no_others(..., of = "as.data.frame")
    ends <- vapply(x$segments, `[[`, "", "hi")
    count <- length(x$names)
    frame <- data.frame(
        tau = rep(fraction_value(x$tau), each = count), term = rep(x$names, length(x$segments)),
        estimate = c(x$coefficients), exact = unname(c(x$exact))
    )
    if (x$is_process) cbind(lo = frame$tau, hi = rep(fraction_value(ends), each = count), frame[-1]) else frame
}

#' The coefficients in the columns of broom, with rank intervals where conf.int asks for them.
tidy.rq_exact <- function(x, conf.int = FALSE, conf.level = 0.95, ...) {
    no_others(..., of = "tidy")
    frame <- as.data.frame(x)
    if (conf.int) {
        ends <- do.call(rbind, summary(x, alpha = 1 - conf.level, tau = if (x$is_process) x$tau)$tables)
        frame <- cbind(frame, conf.low = unname(ends[, 2]), conf.high = unname(ends[, 3]))
    }
    frame
}

print.rq_exact <- function(x, digits = max(3, getOption("digits") - 3), ...) {
    cat("Call:\n")
    print(x$call)
    if (x$is_process) {
        cat("\nExact fits of all quantiles:", length(x$segments), "segments\n")
        shown <- t(rbind(tau = fraction_value(x$tau), as.matrix(x$coefficients)))
        print(utils::head(shown, 6), digits = digits)
        if (nrow(shown) > 6) cat("and", nrow(shown) - 6, "more\n")
    } else {
        cat("\nCoefficients:\n")
        print(x$coefficients, digits = digits)
        cat("\nExact:\n")
        print(x$exact, quote = FALSE)
        cat("\nLoss:", paste(x$exact_loss, collapse = "  "), "\n")
    }
    cat("Records:", x$records, " dropped:", x$dropped, "\n")
    print_notes(c(x$computed, uniqueness_notes(x)))
    invisible(x)
}
