# What a user should know of a result: that it isn't unique, that it depends on the order of the records, that a column isn't what it seems.

# On a column of the table: a factor that is nearly numbers, or wholly, and an order that isn't kept.
column_notes <- function(column, name) {
    if (is.numeric(column) || inherits(column, c("Date", "POSIXct", "difftime"))) return(NULL)
    cells <- as.character(column)
    cells <- cells[!is_missing(cells)]
    odd <- unique(cells[!is_number_text(cells)])
    numbers <- sum(is_number_text(cells))
    c(
        if (length(odd) && numbers > 0 && numbers >= length(cells) - numbers) {
            paste0(name, " is a factor, since ", length(cells) - numbers, " of its ", length(cells), " cells are no numbers: ", some_of(dQuote(odd, FALSE)))
        },
        if (length(cells) && !length(odd) && !is.factor(column)) {
            paste0(name, " has texts, each of which is a number", if (any(grepl("/", cells))) " or a fraction",
                ": it is a factor, as in R; as.numeric() makes numbers of decimals")
        }
    )
}

# The first few texts, and how many more there are.
some_of <- function(texts, most = 3) {
    shown <- paste(utils::head(texts, most), collapse = ", ")
    if (length(texts) > most) paste(shown, "and", length(texts) - most, "more") else shown
}

# Whether the dual values of a segment's basis lie strictly within their bounds in its middle: then no other coefficients have the same loss
# there, by the law `fit_is_only` of the program (Koenker 2005, section 2.2.2). `penalty` is the bound of those of penalty rows, NA where it
# isn't known.
is_strict <- function(segment, rows = Inf, penalty = NA) {
    scores <- (fraction_value(segment$basic[, 1]) + fraction_value(segment$basic[, 2])) / 2
    of_penalty <- as.integer(rownames(segment$basic)) > rows
    isTRUE(all(scores[!of_penalty] > 0 & scores[!of_penalty] < 1) && all(is.na(penalty) | abs(scores[of_penalty]) < penalty))
}

# The bound of the dual values of penalty rows: the number of the formula's one smooth, 0 without a smooth, and NA of several.
penalty_of <- function(formula) {
    text <- deparse1(formula)
    found <- regmatches(text, gregexpr("qss\\([^()]*,[^()]*\\)", text))[[1]]
    if (length(found) == 1) fraction_value(sub("^.*[,=] *(.*)\\)$", "\\1", found)) else if (length(found)) NA else 0
}

# Coefficients beside those of a segment with the same loss, or NULL where none are told: where the rankscore of a basic row is 0 or 1 and
# no other row lies on the fit, the fit moves along the rows of the basis but that one, to the first row that it then meets.
beside <- function(segment, design, coefficients) {
    scores <- (fraction_value(segment$basic[, 1]) + fraction_value(segment$basic[, 2])) / 2
    freed <- which(scores %in% c(0, 1))[1]
    if (is.na(freed)) return(NULL)
    basis <- as.integer(rownames(segment$basic))
    residuals <- drop(design$y - design$offset - design$x %*% coefficients)
    if (any(abs(residuals[-basis]) <= 1e-9 * max(1, abs(residuals)))) return(NULL)
    # The freed row comes to lie above the fit where its rankscore is 1, and below it where that is 0.
    move <- solve(design$x[basis, , drop = FALSE], (if (scores[freed] == 1) -1 else 1) * (seq_along(basis) == freed))
    rises <- drop(design$x %*% move)
    meets <- abs(rises) > 1e-9 * max(abs(rises)) & residuals * rises > 0
    meets[basis] <- FALSE
    coefficients + (if (any(meets)) min(residuals[meets] / rises[meets]) else 1) * move
}

#' Other coefficients with the same loss, for each of a fit's quantiles or within each of its segments, in the shape of coef(fit); NA where none are
#' told.
other_coef <- function(fit) {
    design <- if (!isTRUE(fit$is_smooth)) tryCatch(design_of(fit), error = function(unclear) NULL)
    own <- as.matrix(fit$coefficients)
    found <- lapply(seq_along(fit$segments), function(at) {
        other <- if (!is.null(design)) beside(fit$segments[[at]], design, own[, at])
        if (is.null(other)) rep(NA_real_, nrow(own)) else other
    })
    by_column(unlist(found), fit$names, colnames(own))
}

#' Whether a fit is unique, for each of its quantiles or within each of its segments: TRUE where the dual values show it, FALSE where other_coef(fit)
#' has other coefficients of the same loss, and else NA.
#'
#' Where two segments with other coefficients meet, at a breakpoint of a process, the fit isn't unique.
is_unique <- function(fit) {
    strict <- vapply(fit$segments, is_strict, NA, rows = fit$records, penalty = penalty_of(fit$formula))
    if (all(strict)) return(unname(strict))
    others <- as.matrix(other_coef(fit))
    unname(ifelse(strict, TRUE, ifelse(is.na(others[1, ]), NA, FALSE)))
}

# That a fit isn't unique, or may not be, and where.
uniqueness_notes <- function(fit) {
    unique <- is_unique(fit)
    ends <- vapply(fit$segments, function(it) if (it$lo == it$hi) it$lo else paste(it$lo, "to", it$hi), "")
    told <- function(at, says) {
        if (!any(at)) return(NULL)
        where <- if (fit$is_process) paste("within", sum(at), "of", length(at), "segments:", some_of(ends[at])) else paste("at tau =", some_of(fit$tau[at], 8))
        paste("the fit", says, "unique", where)
    }
    c(told(!is.na(unique) & !unique, "is not"), told(is.na(unique), "may not be"))
}

# That responses are tied, on which Wilcoxon scores and their tests depend.
ties_notes <- function(model) {
    frame <- model$frame
    if (is.null(frame)) return(NULL)
    response <- round(model.response(frame) - offset_of(frame), 12)
    tied <- sum(duplicated(response) | duplicated(response, fromLast = TRUE))
    if (!tied) return(NULL)
    paste0(
        tied, " of ", length(response), " records share their response with another: Wilcoxon scores, and a test by them, may depend on the ",
        "order of the records; rank_test_exact(.., orders = 20) shows by how much"
    )
}

# A note on a result that is worked out by gmp after a fault.
rescue_note <- function(fault) {
    paste0("worked out from the process by exact arithmetic of R's package gmp, not by the proved program, which ended with status 7 (",
        paste0(names(fault$fields[c("place", "quantity")]), "=", unlist(fault$fields[c("place", "quantity")]), collapse = " "), ")")
}

print_notes <- function(notes) for (note in notes) cat(strwrap(paste("Note:", note), 110, exdent = 2), sep = "\n")
