\name{read_report}
\alias{read_report}
\alias{fraction_value}
\alias{find_quantreg}
\title{Reports of quantreg}
\description{Reads the text of a report of \code{process}, \code{ranks}, \code{predict}, \code{path} or \code{test} as a list of texts; turns number texts into doubles; finds the program.}
\usage{
read_report(text)
fraction_value(text)
find_quantreg(program = NULL)
}
\arguments{
\item{text}{the report, as one text or as its lines; for \code{fraction_value}, number texts.}
\item{program}{the path of the program.}
}
\value{A list with \code{kind} and the parts of the report; doubles; a path.}
