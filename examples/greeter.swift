import Distributed
typealias DefaultDistributedActorSystem = NodeSystem
distributed actor Greeter {
  var count = 0
  distributed func greet(name: String) -> String {
    count += 1
    return "Hello, \(name)! (\(count))"
  }
}
func serve(system: NodeSystem) async throws {
  _ = Greeter(actorSystem: system.named("greeter"))
}
func ask(system: NodeSystem) async throws {
  let g = try Greeter.resolve(id: ActorID(node: 1, name: "greeter"), using: system)
  print(try await g.greet(name: "Ada"))
}
