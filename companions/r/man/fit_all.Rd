\name{fit_all}
\alias{fit_all}
\alias{fit_parts}
\title{Many exact fits at once, and all quantiles by parts}
\description{\code{fit_all} makes many fits side by side, and \code{fit_parts} one fit of all quantiles as several ranges side by side.}
\usage{
fit_all(jobs, call = rq_exact, cores = parallel::detectCores(), keep_faults = FALSE)
fit_parts(formula, data = NULL, parts = 2, weights = NULL, contrasts = NULL,
    pivots = NULL, program = NULL, cores = parallel::detectCores(),
    subset = NULL, offset = NULL, na.action = NULL, digits = NULL)
}
\arguments{
\item{jobs}{a list of lists of arguments by their names, as those of \code{call}.}
\item{call}{the function that is called for each job.}
\item{cores}{how many processors work at once, where R can fork.}
\item{keep_faults}{whether a condition stands in the place of a job that failed; else it ends all.}
\item{formula, data, weights, contrasts, pivots, program, subset, offset, na.action, digits}{as in \code{\link{rq_exact}}.}
\item{parts}{into how many ranges the quantiles from 0 to 1 are cut, 1 to 1008.}
}
\value{\code{fit_all} has what each call gives, in the order of the jobs. \code{fit_parts} has the fit of
\code{rq_exact(.., tau = -1)}: where parts can't be joined, since a cut falls on a breakpoint, or where one ends with status 7, all
quantiles are fitted as one.}
\examples{
\dontrun{
fit_all(lapply(1:3 / 4, function(tau) list(formula = dist ~ speed, data = cars, tau = tau)))
fit_parts(stack.loss ~ ., stackloss, parts = 4)
}
}
