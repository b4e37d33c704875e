typealias Number = Int
