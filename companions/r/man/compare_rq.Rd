\name{compare_rq}
\alias{compare_rq}
\alias{print.compare_rq}
\title{R's rq beside the exact fit}
\description{Fits a formula by \code{rq} of the package quantreg and exactly, with the differences of coefficients and losses.
Offsets, which \code{rq} passes over, are taken from the response of both.}
\usage{compare_rq(formula, data = NULL, tau = 0.5, weights = NULL, program = NULL,
    method = "br", ...)}
\arguments{
\item{formula, data, tau, weights, program}{as for \code{\link{rq_exact}}.}
\item{method}{as for \code{rq}.}
\item{...}{other arguments of \code{\link{rq_exact}}.}
}
\value{A list: \code{summary} has for each quantile the greatest difference of a coefficient (over 1 or its size where that is more), both
losses and a verdict, \code{coefficients} both fits column by column, and \code{fit} the exact fit.}
