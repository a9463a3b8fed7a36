\name{summary.rq_exact}
\alias{summary.rq_exact}
\alias{print.summary.rq_exact}
\alias{as.data.frame.summary.rq_exact}
\alias{coef.summary.rq_exact}
\alias{confint.rq_exact}
\alias{critical_value}
\title{Rank intervals of an exact fit}
\description{The coefficients of a fit with the values that a rank test doesn't refuse, at each of its quantiles.}
\usage{
\method{summary}{rq_exact}(object, alpha = 0.1, crit = NULL, tcrit = TRUE, tau = NULL,
        se = "rank", iid = TRUE, ...)
\method{coef}{summary.rq_exact}(object, ...)
\method{print}{summary.rq_exact}(x, digits = max(5, getOption("digits") - 2), ...)
\method{as.data.frame}{summary.rq_exact}(x, row.names = NULL, optional = FALSE, ...)
\method{confint}{rq_exact}(object, parm = object$names, level = 0.95, ...)
critical_value(alpha, df = NULL)
}
\arguments{
\item{object}{a fit, of \code{coef} a summary.}
\item{x}{a summary.}
\item{alpha}{1 minus the level.}
\item{crit}{the critical value that is compared with the squared statistic, in place of that of the level: a number or a fraction in text, as
it stands.}
\item{tcrit}{whether the critical value is that of the t distribution with n - p degrees of freedom, as in \code{summary.rq}, or of the
normal one.}
\item{tau}{of a fit of all quantiles, those of the summary; the quartiles where it is \code{NULL}.}
\item{se, iid}{\code{"rank"} and \code{TRUE}, as those of \code{summary.rq}: others have no answer.}
\item{row.names, optional}{not used.}
\item{digits}{how many digits are printed.}
\item{parm}{the columns, by names or numbers.}
\item{level}{the level.}
\item{df}{degrees of freedom of the t distribution; the normal one where it is \code{NULL}.}
\item{...}{for \code{confint}, arguments of \code{summary}; else nothing.}
}
\value{A list of class \code{summary.rq_exact}: \code{tables} has a matrix for each quantile, \code{exact} the ends as fractions in text,
\code{coefficients} that of one quantile or all in a list, which \code{coef} gives, \code{crit} the critical value, and \code{notes} what is to be known of it. \code{confint} gives a matrix, or a list of them by quantile.
\code{critical_value} gives a fraction in text.}
\details{The critical value is the fraction of the least denominator that agrees with the square of the two-sided critical value to five
digits: within a share of 1/100000. For the normal distribution that is 441/163 for an alpha of 0.1 and 315/82 for 0.05; shorter ones, as 46/17
and 73/19, agree to four. Each digit more makes the numbers longer from which an interval is worked out. Where one outgrows the program, the
intervals of that quantile are worked out one by one, with fractions of any size, by the package gmp where it is installed, and a note says
so. One that has no answer then either is missing, and a note tells the cause.}
\examples{
\dontrun{
summary(rq_exact(foodexp ~ income, engel))
confint(rq_exact(stack.loss ~ ., stackloss), level = 0.9)
critical_value(0.1)
}
}
