# The coefficients over the quantiles, a panel for each column, and the lines of a fit over its data.

fit_colour <- "#1f4e79"
band_colour <- "#c9dcec"
change_colour <- "#c0504d"

# The columns of a fit that are numbers and no contrasts of a factor: a coefficient of theirs is per unit.
numeric_columns <- function(fit) {
    if (is.null(fit$terms) || is.null(fit$frame)) return(character())
    variables <- variables_in(fit$terms)
    if (!length(variables)) return(character())
    coded <- rownames(variables) %in% names(fit$frame)[is_coded(fit$frame)]
    labels <- colnames(variables)[colSums(variables[coded, , drop = FALSE]) == 0]
    fit$names[by_value(fit$names) %in% by_value(labels)]
}

# The coefficients of least squares over the design of a fit with its weights; NULL where R has no design of it.
least_squares <- function(fit) {
    if (isTRUE(fit$is_smooth) || is.null(fit$frame)) return(NULL)
    design <- design_of(fit)
    stats::setNames(stats::lm.wfit(design$x, design$y - design$offset, design$weight)$coefficients, fit$names)
}

# The units of variables as the data have them, by an attribute `units`, or as they are given by name.
units_of <- function(x, units) {
    found <- x$units
    found[names(units)] <- unlist(units)
    found
}

# A name with its unit, where there is one.
with_unit <- function(name, units) if (!is.null(units) && name %in% names(units)) paste0(name, " (", units[[name]], ")") else name

# What a coefficient is measured in: the response, for a column of numbers by a unit of it.
axis_label <- function(x, name, units) {
    response <- label_of(x$formula[[2]])
    if (!name %in% x$numeric) return(with_unit(response, units))
    by <- if (name %in% names(units)) units[[name]] else paste("unit of", name)
    paste(if (response %in% names(units)) units[[response]] else response, "per", by)
}

# The rank intervals as bars at the quantiles where they were worked out: an infinite end runs off the panel, and a missing one is left out.
draw_bars <- function(tau, low, high) {
    edge <- par("usr")[3:4] + c(-1, 1) * diff(par("usr")[3:4])
    there <- !is.na(low) & !is.na(high)
    width <- max(2, min(9, 160 / length(tau)))
    segments(tau[there], pmax(low, edge[1])[there], tau[there], pmin(high, edge[2])[there], col = band_colour, lwd = width, lend = "butt")
}

# A coefficient over all quantiles: steps, and a tick at each change.
draw_process <- function(breaks, values) {
    lines(c(breaks, 1), c(values, values[length(values)]), type = "s", col = fit_colour, lwd = if (length(breaks) > 120) 0.8 else 1.6)
    changes <- breaks[-1][diff(values) != 0]
    # Many ticks would run together, so each is drawn the thinner the more there are.
    if (length(changes)) rug(changes, col = change_colour, lwd = max(0.05, min(0.8, 60 / length(changes))), quiet = TRUE)
}

# One panel: the bars, where there are some, the coefficient, and that of least squares. `bars` has a row for each quantile: tau, low and high.
draw_panel <- function(name, label, tau, values, bars, is_process, trim, ols, ...) {
    room <- if (length(tau) > 1) 0.6 * min(diff(sort(tau))) else 0.05
    range <- if (is_process) c(trim, 1 - trim) else pmin(1 - trim, pmax(trim, range(tau) + c(-1, 1) * room))
    last <- if (is_process) c(tau[-1], 1) else tau
    shown <- values[last >= range[1] & tau <= range[2]]
    ends <- c(bars[bars[, 1] >= range[1] & bars[, 1] <= range[2], -1])
    limits <- range(shown, ends[is.finite(ends)], ols)
    plot(range, limits, type = "n", xlab = "quantile", ylab = label, main = name, xaxs = "i", ...)
    if (length(bars)) draw_bars(bars[, 1], bars[, 2], bars[, 3])
    abline(h = 0, col = "grey70")
    if (length(ols)) abline(h = ols, col = change_colour, lty = 2)
    if (is_process) draw_process(tau, values) else points(tau, values, pch = 20, col = fit_colour)
    box()
}

# The panels of some columns, and below them what is drawn.
draw_panels <- function(x, columns, bars, is_process, tau, beta, said, trim, mfrow, ols, units, ...) {
    if (is.null(mfrow)) mfrow <- c(ceiling(length(columns) / 2), min(length(columns), 2))
    if (length(ols)) said <- c(said, "dashed: least squares")
    if (is_process && trim > 0) said <- c(said, paste0("quantiles from ", trim, " to ", 1 - trim, " (trim = 0 draws all)"))
    old <- par(mfrow = mfrow, mar = c(4, 4.2, 2.5, 1), oma = c(if (length(said)) 2.6 else 0, 0, 0, 0))
    on.exit(par(old))
    units <- units_of(x, units)
    for (name in columns) draw_panel(name, axis_label(x, name, units), tau, beta[name, ], bars[[name]], is_process, trim, ols[name], ...)
    text <- paste(said, collapse = "; ")
    if (nzchar(text)) mtext(rev(strwrap(text, 16 * par("din")[1])), side = 1, outer = TRUE, cex = 0.75, line = seq_along(strwrap(text, 16 * par("din")[1])) - 0.6)
}

# The rank intervals of a summary by column.
bars_of <- function(summary, columns) {
    tau <- fraction_value(summary$tau)
    bars <- lapply(columns, function(name) cbind(tau, t(vapply(summary$tables, function(table) table[name, 2:3], numeric(2)))))
    stats::setNames(bars, columns)
}

bars_text <- function(summary) {
    level <- if (!is.na(summary$alpha)) paste0(" of the level ", format(100 * (1 - summary$alpha)), " %")
    paste0("bars: rank intervals", level, ", critical value ", summary$crit)
}

#' Draws each column's coefficient over the quantiles of the fit: steps where it has all, points else.
#'
#' With alpha or crit, rank intervals are drawn as bars: at the quantiles of the fit, or at those of band_at where it has all. trim leaves out so
#' much at both ends, where the steps of a process run far off; ols adds the coefficient of least squares; units has texts by names.
plot.rq_exact <- function(x, columns = x$names, alpha = NULL, crit = NULL, band_at = NULL, trim = if (x$is_process) 0.05 else 0, mfrow = NULL,
                          ols = FALSE, units = NULL, ...) {
    tau <- fraction_value(x$tau)
    if (!x$is_process && length(tau) < 2) stop("a fit at one quantile has no process to draw", call. = FALSE)
    said <- NULL
    bars <- list()
    if (!is.null(alpha) || !is.null(crit)) {
        if (x$is_process && is.null(band_at)) band_at <- paste0(1:19, "/20")
        found <- summary(x, alpha = if (is.null(alpha)) 0.1 else alpha, crit = crit, tau = if (x$is_process) band_at)
        bars <- bars_of(found, columns)
        said <- bars_text(found)
        for (note in setdiff(found$notes, c(x$computed, uniqueness_notes(x)))) warning(note, call. = FALSE)
    }
    x$numeric <- numeric_columns(x)
    draw_panels(x, columns, bars, x$is_process, tau, as.matrix(x$coefficients), said, trim, mfrow, if (ols) least_squares(x), units, ...)
    invisible(x)
}

#' Draws the coefficients of a summary at its quantiles with their rank intervals as bars, and those of least squares.
plot.summary.rq_exact <- function(x, columns = x$names, trim = 0, mfrow = NULL, ols = TRUE, units = NULL, ...) {
    beta <- vapply(x$tables, function(table) table[, 1], numeric(length(x$names)))
    beta <- matrix(beta, length(x$names), dimnames = list(x$names, NULL))
    draw_panels(x, columns, bars_of(x, columns), FALSE, fraction_value(x$tau), beta, bars_text(x), trim, mfrow, if (ols) x$ols, units, ...)
    invisible(x)
}

# The heights at which labels stand that would else be nearer than `gap` to each other, in the order of the heights.
apart <- function(heights, gap) {
    order <- order(heights)
    for (at in seq_along(order)[-1]) heights[order[at]] <- max(heights[order[at]], heights[order[at - 1]] + gap)
    heights
}

#' Draws the data of a fit over its one variable of numbers, however many columns it has, and its line at each quantile of the fit, or at those of
#' tau where it has all: a panel for each level of the factors beside it. A fit of factors alone has its levels at the quantiles.
plot_fit <- function(fit, tau = c(0.05, 0.1, 0.25, 0.5, 0.75, 0.9, 0.95), units = NULL, mfrow = NULL, ...) {
    variables <- fit$variables
    if (is.null(variables) || isTRUE(fit$is_smooth)) stop("a fit with a smooth has no lines to draw", call. = FALSE)
    is_number <- vapply(variables, is.numeric, NA)
    if (sum(is_number) > 1) stop("the lines of a fit stand over one variable of numbers, and this one has ", paste(names(variables)[is_number], collapse = ", "), call. = FALSE)
    x <- names(variables)[is_number]
    variables[!is_number] <- lapply(variables[!is_number], function(it) droplevels(as.factor(it)))
    at <- if (fit$is_process) tau else fraction_value(fit$tau)
    # The palest colours of the palette are left out.
    colours <- hcl.colors(length(at) + 3, "Blues 3")[seq_along(at)]
    y <- as.numeric(model.response(fit$frame))
    units <- units_of(fit, units)
    response <- with_unit(label_of(fit$formula[[2]]), units)
    lines_at <- function(records) {
        values <- predict(fit, records, tau = if (fit$is_process) at)
        matrix(values, nrow(records))
    }
    groups <- unique(variables[!is_number])
    if (!length(x)) return(draw_levels(fit, groups, variables, y, lines_at, at, colours, response, ...))
    if (nrow(groups) > 12) stop("the factors of this fit have ", nrow(groups), " combinations: draw 12 at most", call. = FALSE)
    panels <- max(1, nrow(groups))
    if (is.null(mfrow)) mfrow <- c(ceiling(panels / 2), min(panels, 2))
    old <- par(mfrow = mfrow, mar = c(4, 4.2, if (ncol(groups)) 2.5 else 1, 3.2))
    on.exit(par(old))
    across <- variables[[x]]
    grid <- seq(min(across), max(across), length.out = 201)
    for (group in seq_len(panels)) {
        records <- stats::setNames(data.frame(grid), x)
        shown <- rep(TRUE, length(y))
        for (name in names(groups)) {
            records[[name]] <- groups[[name]][group]
            shown <- shown & variables[[name]] == groups[[name]][group]
        }
        fitted <- lines_at(records)
        title <- paste(names(groups), vapply(groups[group, , drop = FALSE], as.character, ""), collapse = ", ")
        plot(across, y, type = "n", xlab = with_unit(x, units), ylab = response, main = if (ncol(groups)) title, ylim = range(y, fitted), ...)
        points(across[shown], y[shown], pch = 20, cex = 0.7, col = "grey55")
        for (line in seq_along(at)) lines(grid, fitted[, line], col = colours[line], lwd = 1.4)
        label_lines(fitted[nrow(fitted), ], at, colours)
    }
    invisible(fit)
}

# The quantile of each line at the right edge, moved apart where they would stand on each other.
label_lines <- function(heights, at, colours) {
    gap <- 1.6 * graphics::strheight("0", cex = 0.75)
    mtext(format(at, trim = TRUE, drop0trailing = TRUE), side = 4, at = apart(heights, gap), col = colours, las = 1, line = 0.3, cex = 0.75 * par("cex"))
}

# A fit of factors alone: the data at each combination of levels, and the quantiles there.
draw_levels <- function(fit, groups, variables, y, lines_at, at, colours, response, ...) {
    if (!ncol(groups)) stop("a fit of an intercept alone has no lines to draw", call. = FALSE)
    groups <- groups[do.call(order, unname(as.list(groups))), , drop = FALSE]
    labels <- do.call(paste, c(unname(lapply(groups, as.character)), sep = ":"))
    place <- match(do.call(paste, c(unname(lapply(variables, as.character)), sep = ":")), labels)
    fitted <- lines_at(groups)
    old <- par(mar = c(4, 4.2, 1, 3.2))
    on.exit(par(old))
    plot(place, y, xlim = c(0.5, length(labels) + 0.5), ylim = range(y, fitted), xaxt = "n", xlab = paste(names(groups), collapse = ":"), ylab = response, pch = 20, cex = 0.7, col = "grey55", ...)
    graphics::axis(1, seq_along(labels), labels)
    for (line in seq_along(at)) segments(seq_along(labels) - 0.3, fitted[, line], seq_along(labels) + 0.3, fitted[, line], col = colours[line], lwd = 1.8)
    label_lines(fitted[nrow(fitted), ], at, colours)
    invisible(fit)
}
