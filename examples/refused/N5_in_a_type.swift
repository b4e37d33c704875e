actor Cart {
  typealias ActorSystem = NodeSystem
}
