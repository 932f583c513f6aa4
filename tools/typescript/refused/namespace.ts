// refused: 2:1 no record for ModuleDeclaration
namespace Rack {
  trace(1);
}
