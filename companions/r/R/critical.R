# Critical values of rank intervals, as fractions: each digit makes the numbers of an interval longer.

# The fraction of the least denominator from `low` to `high`, above 0, as numerator and denominator, by continued fractions (Knuth 4.5.3).
simplest_between <- function(low, high) {
    whole <- ceiling(low)
    if (whole <= high) return(c(whole, 1))
    inner <- simplest_between(1 / (high - whole + 1), 1 / (low - whole + 1))
    c((whole - 1) * inner[1] + inner[2], inner[1])
}

# The simplest fraction that agrees with a number above 0 to five digits: within a share of 1/100000.
short_fraction <- function(value) {
    found <- simplest_between(value * (1 - 1e-5), value * (1 + 1e-5))
    paste(format(found[found != c(0, 1)], scientific = FALSE, trim = TRUE), collapse = "/")
}

#' The critical value of rank intervals of the level 1 - alpha: a short fraction for the square of a two-sided critical value.
#'
#' That is Student's with so many degrees of freedom, or the normal distribution's where they are NULL: 441/163 for 0.1 and 315/82 for 0.05.
critical_value <- function(alpha, df = NULL) {
    if (length(alpha) != 1 || !is.numeric(alpha) || !(alpha > 0 && alpha < 1)) {
        stop("alpha is one number between 0 and 1, such as 0.1", call. = FALSE)
    }
    root <- if (is.null(df)) qnorm(1 - alpha / 2) else qt(1 - alpha / 2, df)
    short_fraction(root^2)
}
