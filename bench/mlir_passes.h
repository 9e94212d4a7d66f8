// The passes that are measured over MLIR. Each answers whether it was done.
#pragma once
#include "mlir_dialect.h"

#include "mlir/IR/BuiltinOps.h"
#include "mlir/IR/PatternMatch.h"
#include "mlir/Pass/PassManager.h"
#include "mlir/Transforms/DialectConversion.h"
#include "mlir/Transforms/GreedyPatternRewriteDriver.h"
#include "mlir/Transforms/Passes.h"
#include "mlir/Transforms/RegionUtils.h"
#include <memory>

namespace bench {

// One run of a pass over a module, without a verifier between.
inline bool runPass(mlir::ModuleOp root, std::unique_ptr<mlir::Pass> pass) {
  mlir::PassManager passes(root.getContext());
  passes.enableVerifier(false);
  passes.addPass(std::move(pass));
  return mlir::succeeded(passes.run(root));
}

// The driver of patterns without any, which folds and erases what is dead, from the first operation on, as the
// canonicaliser takes them. Regions are left alone.
inline bool driveGreedily(mlir::ModuleOp root) {
  mlir::GreedyRewriteConfig config;
  config.useTopDownTraversal = true;
  config.enableRegionSimplification = mlir::GreedySimplifyRegionLevel::Disabled;
  config.maxIterations = mlir::GreedyRewriteConfig::kNoLimit;
  mlir::FrozenRewritePatternSet none;
  return mlir::succeeded(mlir::applyPatternsAndFoldGreedily(root.getOperation(), none, config));
}

// Answers whether all is done, also where nothing was dead.
inline bool prune(mlir::ModuleOp root) {
  mlir::IRRewriter rewriter(root.getContext());
  (void)mlir::runRegionDCE(rewriter, root->getRegions());
  return true;
}

// Replaces an operation that is converted by one without effect.
struct Resolve : mlir::ConversionPattern {
  explicit Resolve(mlir::MLIRContext *context) : ConversionPattern(ReferenceOp::getOperationName(), 1, context) {}
  mlir::LogicalResult matchAndRewrite(mlir::Operation *op, llvm::ArrayRef<mlir::Value>,
                                      mlir::ConversionPatternRewriter &rewriter) const override {
    rewriter.replaceOpWithNewOp<StepOp>(op, op->getResult(0).getType(), mlir::ValueRange());
    return mlir::success();
  }
};

inline bool convert(mlir::ModuleOp root) {
  mlir::ConversionTarget target(*root.getContext());
  target.addIllegalOp<ReferenceOp>();
  target.addLegalOp<StepOp>();
  mlir::RewritePatternSet patterns(root.getContext());
  patterns.add<Resolve>(root.getContext());
  return mlir::succeeded(mlir::applyPartialConversion(root, target, std::move(patterns)));
}

} // namespace bench
