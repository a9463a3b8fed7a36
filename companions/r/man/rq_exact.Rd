\name{rq_exact}
\alias{rq_exact}
\alias{coef.rq_exact}
\alias{residuals.rq_exact}
\alias{fitted.rq_exact}
\alias{formula.rq_exact}
\alias{nobs.rq_exact}
\alias{predict.rq_exact}
\alias{as.data.frame.rq_exact}
\alias{tidy.rq_exact}
\alias{print.rq_exact}
\alias{is_unique}
\alias{other_coef}
\title{Exact quantile regression}
\description{Hands a data frame to the program quantreg and gives its exact fit.}
\usage{
rq_exact(formula, data = NULL, tau = 0.5, weights = NULL, contrasts = NULL,
         pivots = NULL, program = NULL, subset = NULL, offset = NULL,
         na.action = NULL, digits = NULL)
is_unique(fit)
other_coef(fit)
\method{coef}{rq_exact}(object, exact = FALSE, ...)
\method{residuals}{rq_exact}(object, ...)
\method{fitted}{rq_exact}(object, ...)
\method{formula}{rq_exact}(x, ...)
\method{nobs}{rq_exact}(object, ...)
\method{predict}{rq_exact}(object, newdata, tau = NULL, stepfun = FALSE,
        rearranged = FALSE, interval = "none", type = "none", ...)
\method{as.data.frame}{rq_exact}(x, row.names = NULL, optional = FALSE, ...)
\method{print}{rq_exact}(x, digits = max(3, getOption("digits") - 3), ...)
tidy.rq_exact(x, conf.int = FALSE, conf.level = 0.95, ...)
}
\arguments{
\item{formula}{a formula as in \code{rq}, and \code{qss()} of one column. The program reads names, \code{factor()}, and \code{I()} and
\code{offset()} with \code{+ - * ^}, numbers and ratios of digits; any other call, such as \code{log(x)}, \code{I(1/x)}, \code{poly(x, 2)}, and a
matrix is worked out by R, and stands in the table as one column or several.}
\item{data}{a data frame, which is written by \code{write.csv}: doubles have 15 digits. Names that it lacks, and all where it is \code{NULL},
are those of the formula's environment. It may change places with \code{tau}, as in \code{rq}.}
\item{tau}{quantiles from 0 to 1 as numbers or as texts such as \code{"1/3"}; -1 stands for all of them, as in \code{rq}. For \code{predict} of
a fit of all quantiles, those that are asked for.}
\item{weights, subset, offset}{as in \code{lm}: looked up in the data and then where the formula was made. \code{weights} may be the name of a
column, as a text.}
\item{contrasts}{\code{"treatment"}, \code{"sas"}, \code{"sum"} or \code{"helmert"} for all factors, or a list as in \code{rq}; by default those of each
factor, and of \code{options("contrasts")}.}
\item{na.action}{\code{na.omit}, \code{na.exclude} or \code{na.fail}; \code{options("na.action")} by default.}
\item{digits}{of a fit: columns that R works out are rounded to so many digits of their greatest value, and a note says by how much that moves
them. Of \code{print}: how many digits are printed.}
\item{pivots}{how many pivots may be taken.}
\item{program}{the path of the program; else that of the variable \env{QUANTREG}, else \code{quantreg} on the path.}
\item{fit, object, x}{a fit.}
\item{exact}{whether to give the coefficients as fractions in text.}
\item{newdata}{a data frame of new records; without it the records of the fit.}
\item{stepfun}{whether to give predictions as functions of the quantile, where the fit has all.}
\item{rearranged}{whether these functions are rearranged so that they never fall.}
\item{interval, type}{\code{"none"}: others have no answer.}
\item{row.names, optional}{not used.}
\item{conf.int, conf.level}{whether rank intervals stand beside the coefficients, and their level.}
\item{...}{nothing: any other argument is an error.}
}
\value{\code{rq_exact} gives a list of class \code{rq_exact}, in which \code{coefficients} are doubles, \code{exact} the same as
fractions, \code{loss} and \code{exact_loss} the check losses, and \code{segments} the parts of the report. \code{is_unique} has TRUE for each
quantile, or within each segment of a fit of all, where the dual values lie strictly within their bounds, so that no other coefficients have the
loss; FALSE where \code{other_coef} has others of the same loss; and else NA. \code{other_coef} has the shape of \code{coef}, with NA where none are
told. \code{predict} gives a vector, a matrix with a column for each quantile (or segment), or functions. A run without
a report ends with a condition of class \code{quantreg_error}, with \code{status}, \code{line}, \code{group}, \code{name} and \code{fields}.}
\details{The names of columns, the levels of factors and their contrasts are R's: where the program would read, sort or code them otherwise it is
told codes, or the columns of R's design. A warning comes where a column of numbers has a few texts, or where texts are all numbers. Residuals are
those of R's \code{model.matrix}, once they are seen to have the loss of the report; offsets are taken from the response and added to fitted values
and predictions. \code{print} and \code{summary} say what was worked out by R, and at which quantiles a fit may not be unique.}
\seealso{\code{\link{summary.rq_exact}}, \code{\link{ranks_exact}}, \code{\link{plot.rq_exact}}, \code{\link{compare_rq}}}
\examples{
\dontrun{
rq_exact(stack.loss ~ stack.x, .5)
rq_exact(stack.loss ~ ., stackloss, tau = c("1/4", "1/2"))
predict(rq_exact(dist ~ speed, cars, tau = -1), data.frame(speed = 10), tau = c(0.1, 0.9))
}
}
