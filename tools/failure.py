"""What ends a script without a certificate: its message goes to standard error, and each kind has its exit status."""

USAGE = 1
UNREADABLE = 2  # a file, or what it says, can't be read
NO_SOLVER = 3
SOLVER_FAILED = 4  # the solver gave no answer, or a proof that unit propagation can't follow
WRONG_CIRCUIT = 5  # a clause is false under some row
FOREIGN_READ = 6  # an output reaches a universal that its existential may not see
TOO_FEW_ROWS = 7  # the instances of the given rows have a model
NOT_FALSE = 8  # the formula has functions that make each clause true


class Failure(Exception):
    def __init__(self, status, message):
        super().__init__(message)
        self.status = status
