# R's own fit beside the exact one.

# Why two fits of a quantile differ, or that they don't: by the greatest difference of coefficients and by both losses.
verdict <- function(difference, losses, strict) {
    if (difference <= 1e-6) return("same")
    if (abs(diff(losses)) <= 1e-9 * max(1, abs(losses))) {
        return(if (strict) "same loss, and the exact fit is unique" else "not unique: both losses agree")
    }
    if (losses[1] < losses[2]) "the exact loss is less" else "the loss of rq is less"
}

#' The fit of quantreg's rq beside the exact one at each quantile, with the difference of coefficients and of losses.
#'
#' A difference is the greatest one of a coefficient, over 1 or its size where that is more. The loss of rq is that of its
#' coefficients in the design of R. Offsets, which rq passes over, are taken from the response of both. Needs the package quantreg.
compare_rq <- function(formula, data = NULL, tau = 0.5, weights = NULL, program = NULL, method = "br", ...) {
    if (!requireNamespace("quantreg", quietly = TRUE)) stop("the package quantreg is needed", call. = FALSE)
    call <- match.call()
    call <- call[!names(call) %in% "method"]
    call[[1]] <- rq_exact
    fit <- eval(call, parent.frame())
    if (fit$is_process) stop("a comparison is of single quantiles", call. = FALSE)
    design <- design_of(fit)
    y <- design$y - design$offset
    levels <- fraction_value(fit$tau)
    exact <- as.matrix(fit$coefficients)
    rows <- lapply(seq_along(levels), function(at) {
        inner <- if (is.null(fit$weights)) quantreg::rq.fit(design$x, y, tau = levels[at], method = method)
            else quantreg::rq.wfit(design$x, y, tau = levels[at], weights = design$weight, method = method)
        theirs <- inner$coefficients
        difference <- max(abs(theirs - exact[, at]) / pmax(1, abs(exact[, at])))
        losses <- c(fit$loss[at], check_loss(drop(y - design$x %*% theirs), levels[at], design$weight))
        strict <- is_strict(fit$segments[[at]])
        list(
            coefficients = data.frame(tau = fit$tau[at], column = fit$names, exact = exact[, at], rq = unname(theirs), row.names = NULL),
            summary = data.frame(
                tau = fit$tau[at], difference = difference, loss_exact = losses[1], loss_rq = losses[2],
                verdict = verdict(difference, losses, strict)
            )
        )
    })
    structure(list(
        summary = do.call(rbind, lapply(rows, `[[`, "summary")),
        coefficients = do.call(rbind, lapply(rows, `[[`, "coefficients")), fit = fit
    ), class = "compare_rq")
}

print.compare_rq <- function(x, ...) {
    print(x$coefficients, row.names = FALSE)
    cat("\n")
    print(x$summary, row.names = FALSE)
    invisible(x)
}
