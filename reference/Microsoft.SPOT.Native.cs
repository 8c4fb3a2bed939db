// `Microsoft.SPOT.Native` as a C# compiler sees it.
using System.Reflection;

[assembly: AssemblyVersion("4.3.1.0")]

namespace Microsoft.SPOT
{
    public class Debug
    {
        public Debug() { }
        public static void Print(string text) { }
    }
}
