\name{ranks_exact}
\alias{ranks_exact}
\alias{predictions_exact}
\alias{path_exact}
\alias{rank_test_exact}
\alias{anova.rq_exact}
\title{The other jobs of the program}
\description{Wilcoxon scores, predictions of missing responses, paths of the lasso and rank tests of nested models.}
\usage{
ranks_exact(formula, data = NULL, weights = NULL, contrasts = NULL,
            pivots = NULL, program = NULL, subset = NULL, offset = NULL,
            na.action = NULL, digits = NULL)
predictions_exact(formula, data = NULL, lo = 0, hi = 1, weights = NULL,
                  contrasts = NULL, pivots = NULL, program = NULL,
                  subset = NULL, offset = NULL, digits = NULL)
path_exact(formula, data = NULL, tau = 0.5, lo, hi = lo, weights = NULL,
           contrasts = NULL, pivots = NULL, program = NULL, subset = NULL,
           offset = NULL, na.action = NULL, digits = NULL)
rank_test_exact(formula, data = NULL, tested, weights = NULL,
                contrasts = NULL, pivots = NULL, program = NULL, orders = 1,
                subset = NULL, offset = NULL, na.action = NULL,
                digits = NULL)
\method{anova}{rq_exact}(object, ..., test = "rank", score = "wilcoxon")
}
\arguments{
\item{formula, data, tau, weights, contrasts, pivots, program, subset, offset, na.action, digits}{as for \code{\link{rq_exact}}; \code{tau} is one quantile.}
\item{lo, hi}{the ends of a range of quantiles; for \code{path_exact} those of a range of lambda, above 0.}
\item{tested}{the columns of the design that are tested, by their names or by numbers that rise, counted from 1 with the intercept; one at
least is left.}
\item{orders}{in how many orders of the records the test is made, the first of which is that of the table.}
\item{object, ...}{fits of nested models, of which the largest has all columns of the others; one fit alone is tested against its intercept.
Fits at several quantiles are an error: that their slopes are the same isn't tested here.}
\item{test, score}{\code{"rank"} and \code{"wilcoxon"}: others have no answer.}
}
\value{\code{ranks_exact} gives a list of the scores, \code{ranks} in doubles and \code{exact} in fractions. \code{predictions_exact}
gives a list of two data frames, \code{steps} in doubles and \code{exact} in fractions: a row for each step of a record whose response is
missing, as predicted and rearranged so that it never falls. \code{path_exact} gives such a list of two, \code{segments} and
\code{exact}: a row for each stretch of lambda with its ends, the loss at both, and the coefficients, which minimise the check loss at
\code{tau} plus lambda times the sum of the absolute coefficients but the intercept's. \code{rank_test_exact} gives a list of the rank test that
the tested columns have coefficients 0: \code{scores} by the names of these columns, the \code{statistic}, the number of \code{columns}, the
\code{p_value} by the chi-squared distribution, and the former two as fractions in \code{exact}; with \code{orders}, the statistics of all
of them and their \code{range}. \code{anova} gives a table with an F value, which is the statistic over the number of tested columns, as in
\code{anova(.., test = "rank", score = "wilcoxon")} of quantreg. Each result has \code{notes}, which are warned of.}
\details{Where responses are tied the scores, and a test by them, may depend on the order of the records; a warning says so. Where a number
outgrows the program, scores, tests and rearrangements are worked out from the process, with fractions of any size, by the package gmp where it is
installed; a warning says so.}
\examples{
\dontrun{
rank_test_exact(extra ~ group, sleep, "group2", orders = 20)$range
anova(rq_exact(mpg ~ wt + hp, mtcars), rq_exact(mpg ~ wt, mtcars))
}
}
