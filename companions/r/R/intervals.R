# Rank intervals: by the program, and one by one with fractions of gmp where one of them outgrows it.

# What is left of values, one for each row, by the coefficients of the other columns that fit those of the basis.
left_over <- function(values, others, basis) {
    if (!length(basis)) return(values)
    coef <- solved(lapply(others, function(column) column[basis]), values[basis])
    for (at in seq_along(others)) values <- values - others[[at]] * coef[at]
    values
}

# The fit of the other columns at a value of the tested one: the statistic, and by `sign`, 1 or -1, the nearest and the farthest value with
# the same fit, NULL where there is none.
statistic_at <- function(lesser, value, sign, tau) {
    column <- lesser$tested[[1]]
    response <- lesser$rows$y - value * column
    if (length(lesser$others)) {
        segment <- lesser_process(lesser, response, tau, tau)$segments[[1]]
        marks <- strsplit(segment$marks, "")[[1]]
        basis <- as.integer(rownames(segment$basic))
        scores <- gmp::as.bigq(ifelse(marks == "1", 1, 0))
        scores[basis] <- gmp::as.bigq(segment$basic[, "lo"])
    } else {
        marks <- ifelse(response > 0, "1", "0")
        basis <- integer()
        scores <- gmp::as.bigq(ifelse(response > 0, 1, 0))
    }
    statistic <- sum(lesser$rows$weight * (scores - 1 + gmp::as.bigq(tau)) * column)
    # As the value moves by t, the residual of a row moves by t times this.
    moves <- -left_over(column, lesser$others, basis)
    meets <- marks != "*" & moves != 0
    places <- value - left_over(response, lesser$others, basis)[meets] / moves[meets]
    below <- (moves[meets] > 0) == (marks[meets] == "1")
    ends <- list(if (any(below)) max(places[below]), if (any(!below)) min(places[!below]))
    list(statistic = statistic, ends = if (sign > 0) ends else rev(ends))
}

# The greatest whole number that is no more than a fraction.
floor_of <- function(value) {
    over <- gmp::denominator(value)
    top <- gmp::numerator(value)
    gmp::as.bigq((top - top %% over) / over)
}

# A value to try next: between one within the bound and one beyond it, or so far from the former where none beyond it is known.
value_to_try <- function(inside, outside, sign, stride) {
    width <- if (is.null(outside)) 2 * sign * stride else outside - inside
    part <- 3 * width / 8
    decimal_between(min(inside + part, inside + width - part), max(inside + part, inside + width - part))
}

# The last value on one side that is within the bound, as a text: values are tried until one within meets one beyond.
interval_end <- function(lesser, inside, sign, tau, bound) {
    outside <- NULL
    stride <- gmp::as.bigq(1)
    repeat {
        found <- statistic_at(lesser, value_to_try(inside, outside, sign, stride), sign, tau)
        stride <- 2 * stride
        if (found$statistic^2 > bound) {
            near <- found$ends[[1]]
            outside <- if (is.null(near) || sign * (near - inside) < 0) inside else near
        } else {
            if (is.null(found$ends[[2]])) return(if (sign > 0) "Inf" else "-Inf")
            inside <- found$ends[[2]]
        }
        if (!is.null(outside) && inside == outside) return(as.character(inside))
    }
}

# A decimal of few digits between two fractions: it makes the responses of a decimal table no longer.
decimal_between <- function(low, high) {
    unit <- gmp::as.bigq(1)
    # Whole numbers are multiples of a power of ten as decimals are.
    while (floor_of(high / unit) * unit < low) unit <- unit / 10
    floor_of(high / unit) * unit
}

# The rank interval of a column, as texts: the values whose squared statistic is at most the bound (Koenker 2005, section 3.5).
exact_interval <- function(fit, rows, column, tau, crit, coefficient) {
    lesser <- lesser_of(fit, rows, column)
    weighted <- lapply(rows$columns, function(it) rows$weight * it)
    gram <- lapply(weighted, function(one) do.call(c, lapply(weighted, function(other) sum(one * other))))
    unit <- gmp::as.bigq(as.integer(seq_along(weighted) == column))
    level <- gmp::as.bigq(tau)
    # What is left of the column by least squares on the others has this squared length.
    bound <- crit * level * (1 - level) / solved(gram, unit)[column]
    vapply(c(-1, 1), function(sign) interval_end(lesser, gmp::as.bigq(coefficient), sign, tau, bound), "")
}

# Rank intervals column by column, after a fault: those that have no answer either are missing, with a note of the cause.
rescued_intervals <- function(fit, tau, crit, coefficients, fault) {
    ends <- matrix(NA_character_, length(coefficients), 2)
    cause <- paste0("no rank intervals at tau = ", tau, ": ", fault$line)
    if (!has_gmp()) return(list(ends = ends, notes = paste0(cause, "; R's package gmp (r-cran-gmp) would work them out")))
    rows <- tryCatch(exact_rows(fit), quantreg_error = identity)
    if (inherits(rows, "quantreg_error")) return(list(ends = ends, notes = cause))
    number <- gmp::as.bigq(exact_text(crit))
    notes <- paste0("rank intervals at tau = ", tau, ": ", rescue_note(fault))
    for (column in seq_along(coefficients)) {
        found <- tryCatch(exact_interval(fit, rows, column, exact_text(tau), number, coefficients[column]), quantreg_error = identity)
        if (inherits(found, "quantreg_error")) {
            notes <- c(notes, paste0("no rank interval of ", fit$names[column], " at tau = ", tau, ": ", found$line))
        } else {
            ends[column, ] <- found
        }
    }
    list(ends = ends, notes = notes)
}

# A number text as a ratio or a whole number.
exact_text <- function(text) {
    text <- number_text(text)
    if (grepl("/", text, fixed = TRUE) || !grepl("[.eE]", text)) return(text)
    parts <- regmatches(text, regexec("^([+-]?[0-9]*)\\.?([0-9]*)(?:[eE]([+-]?[0-9]+))?$", text))[[1]]
    power <- (if (nzchar(parts[4])) as.integer(parts[4]) else 0L) - nchar(parts[3])
    # gmp reads digits behind a 0 as octal.
    digits <- sub("^([+-]?)0+([0-9])", "\\1\\2", paste0(parts[2], parts[3]))
    as.character(gmp::as.bigq(digits) * gmp::as.bigq(10)^power)
}

# The rank intervals of all columns at a quantile: their ends as texts, a row for each, and notes.
rank_intervals <- function(fit, tau, crit, coefficients) {
    answer <- function() {
        found <- report_of(fit, "process", list(lo = tau, hi = tau), list(crit = crit, "rank-at" = tau))$intervals
        found <- found[order(found$column), ]
        list(ends = cbind(found$low, found$high), notes = NULL)
    }
    rescued("interval:", answer(), function(fault) rescued_intervals(fit, tau, crit, coefficients, fault))
}
