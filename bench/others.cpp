// Eigen's SimplicialLDLT and CHOLMOD by names for C: a solver is made of the upper triangle of a matrix by columns, in the order in which
// it is to be eliminated; then its pattern is analysed, its numbers are factored, and it solves. Each answers 0 where it is well.
#include <Eigen/Sparse>
#include <Eigen/SparseCholesky>
#include <suitesparse/cholmod.h>
#include <cstring>
#include <memory>

namespace {

struct Solver {
    virtual ~Solver() = default;
    virtual int analyse() = 0;
    virtual int factorize() = 0;
    virtual int solve(const double *b, double *x) = 0;
    virtual void forget() = 0;
};

struct EigenSolver : Solver {
    using Matrix = Eigen::SparseMatrix<double, Eigen::ColMajor, int>;
    using Ldlt = Eigen::SimplicialLDLT<Matrix, Eigen::Upper, Eigen::NaturalOrdering<int>>;
    Matrix matrix;
    std::unique_ptr<Ldlt> ldlt;

    EigenSolver(int n, const int *starts, const int *rows, const double *values)
        : matrix(Eigen::Map<const Matrix>(n, n, starts[n], starts, rows, values)) {}

    int analyse() override {
        if (!ldlt) ldlt = std::make_unique<Ldlt>();
        ldlt->analyzePattern(matrix);
        return 0;
    }
    int factorize() override {
        ldlt->factorize(matrix);
        return ldlt->info() != Eigen::Success;
    }
    int solve(const double *b, double *x) override {
        const Eigen::Index n = matrix.rows();
        Eigen::Map<Eigen::VectorXd>(x, n) = ldlt->solve(Eigen::Map<const Eigen::VectorXd>(b, n));
        return ldlt->info() != Eigen::Success;
    }
    void forget() override { ldlt.reset(); }
};

struct CholmodSolver : Solver {
    cholmod_common common;
    cholmod_sparse *matrix = nullptr;
    cholmod_factor *factor = nullptr;
    cholmod_dense *right = nullptr, *solution = nullptr, *work = nullptr, *more = nullptr;

    CholmodSolver(bool supernodal, int n, const int *starts, const int *rows, const double *values) {
        cholmod_start(&common);
        common.nmethods = 1;
        common.method[0].ordering = CHOLMOD_NATURAL;
        common.supernodal = supernodal ? CHOLMOD_SUPERNODAL : CHOLMOD_SIMPLICIAL;
        common.print = 0;
        matrix = cholmod_allocate_sparse(n, n, starts[n], 1, 1, 1, CHOLMOD_REAL, &common);
        std::memcpy(matrix->p, starts, sizeof(int) * (n + 1));
        std::memcpy(matrix->i, rows, sizeof(int) * starts[n]);
        std::memcpy(matrix->x, values, sizeof(double) * starts[n]);
        if (supernodal) {
            // the lower triangle is what a supernodal factorization reads
            cholmod_sparse *lower = cholmod_transpose(matrix, 1, &common);
            cholmod_free_sparse(&matrix, &common);
            matrix = lower;
        }
        right = cholmod_allocate_dense(n, 1, n, CHOLMOD_REAL, &common);
    }
    ~CholmodSolver() override {
        forget();
        cholmod_free_sparse(&matrix, &common);
        cholmod_free_dense(&right, &common);
        cholmod_finish(&common);
    }
    int analyse() override {
        cholmod_free_factor(&factor, &common);
        factor = cholmod_analyze(matrix, &common);
        return factor == nullptr;
    }
    int factorize() override {
        cholmod_factorize(matrix, factor, &common);
        return common.status != CHOLMOD_OK || factor->minor != factor->n;
    }
    int solve(const double *b, double *x) override {
        const size_t bytes = sizeof(double) * matrix->nrow;
        std::memcpy(right->x, b, bytes);
        if (!cholmod_solve2(CHOLMOD_A, factor, right, nullptr, &solution, nullptr, &work, &more, &common)) return 1;
        std::memcpy(x, solution->x, bytes);
        return 0;
    }
    void forget() override {
        cholmod_free_factor(&factor, &common);
        cholmod_free_dense(&solution, &common);
        cholmod_free_dense(&work, &common);
        cholmod_free_dense(&more, &common);
    }
};

}  // namespace

extern "C" {

Solver *other_new(int which, int n, const int *starts, const int *rows, const double *values) {
    if (which == 0) return new EigenSolver(n, starts, rows, values);
    return new CholmodSolver(which == 2, n, starts, rows, values);
}
int other_analyse(Solver *s) { return s->analyse(); }
int other_factorize(Solver *s) { return s->factorize(); }
int other_solve(Solver *s, const double *b, double *x) { return s->solve(b, x); }
// gives back what the three calls have taken
void other_forget(Solver *s) { s->forget(); }
void other_free(Solver *s) { delete s; }

}
