\name{plot.rq_exact}
\alias{plot.rq_exact}
\alias{plot.summary.rq_exact}
\alias{plot_fit}
\title{Pictures of an exact fit}
\description{The coefficients over the quantiles, a panel for each column, with rank intervals as bands; and the lines of a fit over its data.}
\usage{
\method{plot}{rq_exact}(x, columns = x$names, alpha = NULL, crit = NULL,
     band_at = NULL, trim = if (x$is_process) 0.05 else 0, mfrow = NULL,
     ols = FALSE, units = NULL, ...)
\method{plot}{summary.rq_exact}(x, columns = x$names, trim = 0, mfrow = NULL,
     ols = TRUE, units = NULL, ...)
plot_fit(fit, tau = c(0.05, 0.1, 0.25, 0.5, 0.75, 0.9, 0.95), units = NULL,
     mfrow = NULL, ...)
}
\arguments{
\item{x}{a fit of several quantiles or of all, or a summary.}
\item{columns}{the names of the columns to draw.}
\item{alpha, crit}{the level or the critical value of the bars, as for \code{\link{summary.rq_exact}}; none are drawn where both are NULL.}
\item{band_at}{the quantiles at which a fit of all quantiles has its bars; nineteen of them where it is NULL.}
\item{trim}{how much of the quantiles is left out at both ends.}
\item{mfrow}{rows and columns of panels.}
\item{ols}{whether the coefficients of least squares are drawn, dashed.}
\item{units}{texts by the names of columns, in place of their attributes \code{units}.}
\item{fit}{a fit with one variable of numbers, in one column or several, such as those of \code{x + I(x^2)}, and factors, or factors alone.}
\item{tau}{the quantiles of the lines, where the fit has all.}
\item{...}{handed on to \code{plot}.}
}
\value{The fit or the summary, invisibly.}
\details{A fit of all quantiles is drawn by steps, with a tick at each change, and one of several quantiles by a point for each. A rank interval
is a bar at the quantile where it was worked out; an infinite end runs off the panel and doesn't set its limits. Below the panels stands what is
drawn: the level, and the quantiles that are left out. \code{plot_fit} has a panel for each combination of levels, and each line's quantile at
its right end.}
\examples{
\dontrun{
plot(rq_exact(stack.loss ~ ., stackloss, tau = -1), alpha = 0.1, trim = 0.05)
}
}
