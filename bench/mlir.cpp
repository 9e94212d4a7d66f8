// The commands of the benchmark over MLIR: what they mean is said in README.md. A command that MLIR has nothing for is
// refused.
#include "mlir_modules.h"
#include "mlir_passes.h"

#include "mlir/Dialect/Func/Extensions/InlinerExtension.h"
#include "mlir/IR/MLIRContext.h"
#include "mlir/IR/SymbolTable.h"
#include "mlir/Parser/Parser.h"
#include "llvm/Support/raw_ostream.h"
#include <iostream>
#include <sstream>
#include <unistd.h>
#include <vector>

using bench::Modules;
using bench::Order;
using mlir::Block;
using mlir::Operation;
using mlir::Region;
using mlir::SymbolTable;
using mlir::WalkOrder;

namespace {

class Bench {
  mlir::MLIRContext context{mlir::MLIRContext::Threading::DISABLED};
  Modules modules{context};
  uint64_t built = 0;
  std::string text;

  mlir::ModuleOp root() { return modules.get(); }

  std::vector<Operation *> firstOperations(uint64_t number) {
    std::vector<Operation *> found;
    for (Operation &op : *root().getBody()) {
      if (found.size() == number)
        break;
      found.push_back(&op);
    }
    return found;
  }

  // One walk over the operations, whose callback goes over the regions and blocks of each: the cheapest way to all
  // nodes.
  uint64_t walkNodes() {
    uint64_t count = 0;
    root()->walk<WalkOrder::PreOrder>([&](Operation *op) {
      count++;
      for (Region &region : op->getRegions()) {
        count++;
        for (Block &block : region) {
          (void)block;
          count++;
        }
      }
    });
    return count;
  }

  uint64_t walkOperations() {
    uint64_t count = 0;
    root()->walk<WalkOrder::PreOrder>([&](Operation *) { count++; });
    return count;
  }

  // By texts, of each of which the table makes a name at each look-up.
  uint64_t lookUpTexts(uint64_t rounds) {
    SymbolTable table(root());
    std::vector<std::string> names;
    for (uint64_t i = 0; i < built; i++)
      names.push_back(Modules::name(i));
    uint64_t found = 0;
    for (uint64_t round = 0; round < rounds; round++)
      for (const std::string &name : names)
        found += table.lookup(name) != nullptr;
    return found;
  }

  // By names that are made before.
  uint64_t lookUpNames(uint64_t rounds) {
    SymbolTable table(root());
    std::vector<mlir::StringAttr> names;
    for (uint64_t i = 0; i < built; i++)
      names.push_back(mlir::StringAttr::get(&context, Modules::name(i)));
    uint64_t found = 0;
    for (uint64_t round = 0; round < rounds; round++)
      for (mlir::StringAttr name : names)
        found += table.lookup(name) != nullptr;
    return found;
  }

  uint64_t eraseThroughTable(uint64_t number) {
    auto ops = firstOperations(number);
    SymbolTable table(root());
    for (Operation *op : ops) {
      if (!op->use_empty())
        return 0;
      table.erase(op);
    }
    return ops.size();
  }

  uint64_t eraseByList(uint64_t number) {
    mlir::SymbolTableCollection tables;
    uint64_t done = 0;
    for (Operation *op : firstOperations(number)) {
      if (!op->use_empty())
        continue;
      tables.getSymbolTable(root()).erase(op);
      done++;
    }
    return done;
  }

  uint64_t replaceUses(uint64_t rounds) {
    mlir::Value from = modules.first, to = modules.second;
    for (uint64_t round = 0; round < rounds; round++) {
      from.replaceAllUsesWith(to);
      std::swap(from, to);
    }
    return std::distance(from.use_begin(), from.use_end());
  }

  uint64_t listUses(uint64_t rounds) {
    uint64_t listed = 0;
    for (uint64_t round = 0; round < rounds; round++) {
      std::vector<std::pair<Operation *, unsigned>> uses;
      for (mlir::OpOperand &use : modules.first.getUses())
        uses.emplace_back(use.getOwner(), use.getOperandNumber());
      listed += uses.size();
    }
    return listed;
  }

  void print() {
    text.clear();
    llvm::raw_string_ostream out(text);
    root()->print(out, mlir::OpPrintingFlags().printGenericOpForm());
  }

  uint64_t lookUpTypes(uint64_t number) {
    auto typeOf = [&](unsigned width) { return mlir::IntegerType::get(&context, width, mlir::IntegerType::Signed); };
    auto first = typeOf(0);
    uint64_t count = 0;
    for (uint64_t turn = 0; turn < number; turn++)
      count += typeOf(turn % 1000) == first;
    return count;
  }

  // What is read stays, as what is built does.
  bool read() {
    mlir::ParserConfig config(&context, /*verifyAfterParse=*/false);
    return bool(mlir::parseSourceString<mlir::ModuleOp>(text, config).release());
  }

  // Whether the word is that of a module that is built.
  bool build(std::string word, uint64_t number) {
    const std::string suffix = "-against";
    bool against = word.size() > suffix.size() && word.compare(word.size() - suffix.size(), suffix.size(), suffix) == 0;
    if (against)
      word.resize(word.size() - suffix.size());
    static const std::pair<const char *, void (Modules::*)(uint64_t)> shapes[] = {
        {"build", &Modules::functions},          {"bare", &Modules::bare},
        {"chains", &Modules::chains},            {"blocks", &Modules::blocks},
        {"sums", &Modules::sums},                {"zeros", &Modules::zeros},
        {"references", &Modules::references},    {"users", &Modules::users},
        {"calls", &Modules::calls},              {"callers", &Modules::callers},
        {"symbol-chain", &Modules::symbolChain}, {"symbol-star", &Modules::symbolStar},
    };
    for (auto [name, shape] : shapes) {
      if (word != name)
        continue;
      modules.begin(against ? Order::Against : Order::Along);
      (modules.*shape)(number);
      built = number;
      return true;
    }
    return false;
  }

  // What the pass answers, or -1 where there is none of the word.
  int64_t runPass(const std::string &word) {
    if (word == "sweep" || word == "fold" || word == "pass-on")
      return bench::driveGreedily(root());
    if (word == "prune")
      return bench::prune(root());
    if (word == "convert")
      return bench::convert(root());
    if (word == "drop-symbols")
      return bench::runPass(root(), mlir::createSymbolDCEPass());
    if (word == "inline")
      return bench::runPass(root(), mlir::createInlinerPass({}, [](mlir::OpPassManager &) {}));
    return -1;
  }

  bool repeat(const std::string &word) {
    if (word == "print")
      print();
    else if (word == "read")
      return read();
    else if (word == "table")
      return SymbolTable(root()).getOp() == root().getOperation();
    else
      return false;
    return true;
  }

public:
  Bench() {
    mlir::DialectRegistry registry;
    mlir::func::registerInlinerExtension(registry);
    context.appendDialectRegistry(registry);
    context.loadDialect<mlir::func::FuncDialect, mlir::arith::ArithDialect, mlir::cf::ControlFlowDialect,
                        bench::BenchDialect>();
    context.allowUnregisteredDialects();
  }

  // What the command counted, or -1 where it is refused.
  int64_t run(const std::string &word, uint64_t number) {
    if (build(word, number))
      return number;
    if (word == "types")
      return lookUpTypes(number);
    if (!root())
      return -1;
    if (word == "look-up")
      return lookUpTexts(number);
    if (word == "look-up-made")
      return lookUpNames(number);
    if (word == "erase")
      return eraseThroughTable(number);
    if (word == "erase-list")
      return eraseByList(number);
    if (word == "replace")
      return replaceUses(number);
    if (word == "uses")
      return listUses(number);
    if (int64_t answer = runPass(word); answer >= 0)
      return answer;
    uint64_t count = 0;
    for (uint64_t round = 0; round < number; round++) {
      if (word == "walk")
        count += walkNodes();
      else if (word == "walk-ops")
        count += walkOperations();
      else if (repeat(word))
        count++;
      else
        return -1;
    }
    return count;
  }
};

} // namespace

int main() {
  Bench bench;
  std::string line;
  while (std::getline(std::cin, line)) {
    std::istringstream words(line);
    std::string word;
    uint64_t number = 1;
    words >> word;
    if (!(words >> number))
      number = 1;
    int64_t count = bench.run(word, number);
    if (count < 0) {
      std::cout << line << ": refused" << std::endl;
      _exit(1);
    }
    std::cout << line << ": " << count << std::endl;
  }
  // Nothing is freed at the end, as in the program that is compared.
  _exit(0);
}
