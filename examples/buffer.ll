; ModuleID = 'buffer.c'
source_filename = "buffer.c"
target datalayout = "e-m:e-p270:32:32-p271:32:32-p272:64:64-i64:64-i128:128-f80:128-n8:16:32:64-S128"
target triple = "x86_64-pc-linux-gnu"

@.str = private unnamed_addr constant [9 x i8] c"password\00", align 1, !dbg !0
@.str.1 = private unnamed_addr constant [5 x i8] c"same\00", align 1, !dbg !7
@.str.2 = private unnamed_addr constant [10 x i8] c"different\00", align 1, !dbg !12

; Function Attrs: nounwind uwtable
define dso_local i32 @main() #0 !dbg !29 {
entry:
  %retval = alloca i32, align 4
  %word = alloca ptr, align 8
  %key = alloca [8 x i8], align 1
  store i32 0, ptr %retval, align 4
  call void @llvm.lifetime.start.p0(i64 8, ptr %word) #5, !dbg !41
    #dbg_declare(ptr %word, !34, !DIExpression(), !42)
  store ptr @.str, ptr %word, align 8, !dbg !42, !tbaa !43
  call void @llvm.lifetime.start.p0(i64 8, ptr %key) #5, !dbg !47
    #dbg_declare(ptr %key, !37, !DIExpression(), !48)
  %arraydecay = getelementptr inbounds [8 x i8], ptr %key, i64 0, i64 0, !dbg !49
  %0 = load ptr, ptr %word, align 8, !dbg !50, !tbaa !43
  call void @llvm.memcpy.p0.p0.i64(ptr align 1 %arraydecay, ptr align 1 %0, i64 7, i1 false), !dbg !49
  %arraydecay1 = getelementptr inbounds [8 x i8], ptr %key, i64 0, i64 0, !dbg !51
  %1 = load ptr, ptr %word, align 8, !dbg !52, !tbaa !43
  %call = call i32 @is_same(ptr noundef %arraydecay1, ptr noundef %1), !dbg !53
  %tobool = icmp ne i32 %call, 0, !dbg !53
  %2 = zext i1 %tobool to i64, !dbg !53
  %cond = select i1 %tobool, ptr @.str.1, ptr @.str.2, !dbg !53
  %call2 = call i32 @puts(ptr noundef %cond), !dbg !54
  call void @llvm.lifetime.end.p0(i64 8, ptr %key) #5, !dbg !55
  call void @llvm.lifetime.end.p0(i64 8, ptr %word) #5, !dbg !55
  ret i32 0, !dbg !56
}

; Function Attrs: nocallback nofree nosync nounwind willreturn memory(argmem: readwrite)
declare void @llvm.lifetime.start.p0(i64 immarg, ptr nocapture) #1

; Function Attrs: nocallback nofree nounwind willreturn memory(argmem: readwrite)
declare void @llvm.memcpy.p0.p0.i64(ptr noalias nocapture writeonly, ptr noalias nocapture readonly, i64, i1 immarg) #2

declare !dbg !57 dso_local i32 @puts(ptr noundef) #3

; Function Attrs: nounwind uwtable
define internal i32 @is_same(ptr noundef %key, ptr noundef %other) #0 !dbg !61 {
entry:
  %key.addr = alloca ptr, align 8
  %other.addr = alloca ptr, align 8
  store ptr %key, ptr %key.addr, align 8, !tbaa !43
    #dbg_declare(ptr %key.addr, !65, !DIExpression(), !67)
  store ptr %other, ptr %other.addr, align 8, !tbaa !43
    #dbg_declare(ptr %other.addr, !66, !DIExpression(), !68)
  %0 = load ptr, ptr %key.addr, align 8, !dbg !69, !tbaa !43
  %1 = load ptr, ptr %other.addr, align 8, !dbg !70, !tbaa !43
  %call = call i32 @memcmp(ptr noundef %0, ptr noundef %1, i64 noundef 8) #6, !dbg !71
  %cmp = icmp eq i32 %call, 0, !dbg !72
  %conv = zext i1 %cmp to i32, !dbg !72
  ret i32 %conv, !dbg !73
}

; Function Attrs: nocallback nofree nosync nounwind willreturn memory(argmem: readwrite)
declare void @llvm.lifetime.end.p0(i64 immarg, ptr nocapture) #1

; Function Attrs: nounwind willreturn memory(read)
declare !dbg !74 dso_local i32 @memcmp(ptr noundef, ptr noundef, i64 noundef) #4

attributes #0 = { nounwind uwtable "min-legal-vector-width"="0" "no-trapping-math"="true" "stack-protector-buffer-size"="8" "target-cpu"="x86-64" "target-features"="+cmov,+cx8,+fxsr,+mmx,+sse,+sse2,+x87" "tune-cpu"="generic" }
attributes #1 = { nocallback nofree nosync nounwind willreturn memory(argmem: readwrite) }
attributes #2 = { nocallback nofree nounwind willreturn memory(argmem: readwrite) }
attributes #3 = { "no-trapping-math"="true" "stack-protector-buffer-size"="8" "target-cpu"="x86-64" "target-features"="+cmov,+cx8,+fxsr,+mmx,+sse,+sse2,+x87" "tune-cpu"="generic" }
attributes #4 = { nounwind willreturn memory(read) "no-trapping-math"="true" "stack-protector-buffer-size"="8" "target-cpu"="x86-64" "target-features"="+cmov,+cx8,+fxsr,+mmx,+sse,+sse2,+x87" "tune-cpu"="generic" }
attributes #5 = { nounwind }
attributes #6 = { nounwind willreturn memory(read) }

!llvm.dbg.cu = !{!17}
!llvm.module.flags = !{!24, !25, !26, !27}
!llvm.ident = !{!28}

!0 = !DIGlobalVariableExpression(var: !1, expr: !DIExpression())
!1 = distinct !DIGlobalVariable(scope: null, file: !2, line: 12, type: !3, isLocal: true, isDefinition: true)
!2 = !DIFile(filename: "buffer.c", directory: ".", checksumkind: CSK_MD5, checksum: "26033a6d3173094af7713d9b190f18bf")
!3 = !DICompositeType(tag: DW_TAG_array_type, baseType: !4, size: 72, elements: !5)
!4 = !DIBasicType(name: "char", size: 8, encoding: DW_ATE_signed_char)
!5 = !{!6}
!6 = !DISubrange(count: 9)
!7 = !DIGlobalVariableExpression(var: !8, expr: !DIExpression())
!8 = distinct !DIGlobalVariable(scope: null, file: !2, line: 15, type: !9, isLocal: true, isDefinition: true)
!9 = !DICompositeType(tag: DW_TAG_array_type, baseType: !4, size: 40, elements: !10)
!10 = !{!11}
!11 = !DISubrange(count: 5)
!12 = !DIGlobalVariableExpression(var: !13, expr: !DIExpression())
!13 = distinct !DIGlobalVariable(scope: null, file: !2, line: 15, type: !14, isLocal: true, isDefinition: true)
!14 = !DICompositeType(tag: DW_TAG_array_type, baseType: !4, size: 80, elements: !15)
!15 = !{!16}
!16 = !DISubrange(count: 10)
!17 = distinct !DICompileUnit(language: DW_LANG_C11, file: !2, producer: "Debian clang version 19.1.7 (3~deb12u1)", isOptimized: true, runtimeVersion: 0, emissionKind: FullDebug, enums: !18, globals: !23, splitDebugInlining: false, nameTableKind: None)
!18 = !{!19}
!19 = !DICompositeType(tag: DW_TAG_enumeration_type, file: !2, line: 5, baseType: !20, size: 32, elements: !21)
!20 = !DIBasicType(name: "unsigned int", size: 32, encoding: DW_ATE_unsigned)
!21 = !{!22}
!22 = !DIEnumerator(name: "SIZE", value: 8)
!23 = !{!0, !7, !12}
!24 = !{i32 7, !"Dwarf Version", i32 5}
!25 = !{i32 2, !"Debug Info Version", i32 3}
!26 = !{i32 1, !"wchar_size", i32 4}
!27 = !{i32 7, !"uwtable", i32 2}
!28 = !{!"Debian clang version 19.1.7 (3~deb12u1)"}
!29 = distinct !DISubprogram(name: "main", scope: !2, file: !2, line: 11, type: !30, scopeLine: 11, flags: DIFlagPrototyped | DIFlagAllCallsDescribed, spFlags: DISPFlagDefinition | DISPFlagOptimized, unit: !17, retainedNodes: !33)
!30 = !DISubroutineType(types: !31)
!31 = !{!32}
!32 = !DIBasicType(name: "int", size: 32, encoding: DW_ATE_signed)
!33 = !{!34, !37}
!34 = !DILocalVariable(name: "word", scope: !29, file: !2, line: 12, type: !35)
!35 = !DIDerivedType(tag: DW_TAG_pointer_type, baseType: !36, size: 64)
!36 = !DIDerivedType(tag: DW_TAG_const_type, baseType: !4)
!37 = !DILocalVariable(name: "key", scope: !29, file: !2, line: 13, type: !38)
!38 = !DICompositeType(tag: DW_TAG_array_type, baseType: !4, size: 64, elements: !39)
!39 = !{!40}
!40 = !DISubrange(count: 8)
!41 = !DILocation(line: 12, column: 3, scope: !29)
!42 = !DILocation(line: 12, column: 15, scope: !29)
!43 = !{!44, !44, i64 0}
!44 = !{!"any pointer", !45, i64 0}
!45 = !{!"omnipotent char", !46, i64 0}
!46 = !{!"Simple C/C++ TBAA"}
!47 = !DILocation(line: 13, column: 3, scope: !29)
!48 = !DILocation(line: 13, column: 8, scope: !29)
!49 = !DILocation(line: 14, column: 3, scope: !29)
!50 = !DILocation(line: 14, column: 15, scope: !29)
!51 = !DILocation(line: 15, column: 16, scope: !29)
!52 = !DILocation(line: 15, column: 21, scope: !29)
!53 = !DILocation(line: 15, column: 8, scope: !29)
!54 = !DILocation(line: 15, column: 3, scope: !29)
!55 = !DILocation(line: 17, column: 1, scope: !29)
!56 = !DILocation(line: 16, column: 3, scope: !29)
!57 = !DISubprogram(name: "puts", scope: !58, file: !58, line: 661, type: !59, flags: DIFlagPrototyped, spFlags: DISPFlagOptimized)
!58 = !DIFile(filename: "/usr/include/stdio.h", directory: "", checksumkind: CSK_MD5, checksum: "b5a90985555f47bfb88eff5a8f0f5b72")
!59 = !DISubroutineType(types: !60)
!60 = !{!32, !35}
!61 = distinct !DISubprogram(name: "is_same", scope: !2, file: !2, line: 7, type: !62, scopeLine: 7, flags: DIFlagPrototyped | DIFlagAllCallsDescribed, spFlags: DISPFlagLocalToUnit | DISPFlagDefinition | DISPFlagOptimized, unit: !17, retainedNodes: !64)
!62 = !DISubroutineType(types: !63)
!63 = !{!32, !35, !35}
!64 = !{!65, !66}
!65 = !DILocalVariable(name: "key", arg: 1, scope: !61, file: !2, line: 7, type: !35)
!66 = !DILocalVariable(name: "other", arg: 2, scope: !61, file: !2, line: 7, type: !35)
!67 = !DILocation(line: 7, column: 32, scope: !61)
!68 = !DILocation(line: 7, column: 49, scope: !61)
!69 = !DILocation(line: 8, column: 17, scope: !61)
!70 = !DILocation(line: 8, column: 22, scope: !61)
!71 = !DILocation(line: 8, column: 10, scope: !61)
!72 = !DILocation(line: 8, column: 35, scope: !61)
!73 = !DILocation(line: 8, column: 3, scope: !61)
!74 = !DISubprogram(name: "memcmp", scope: !75, file: !75, line: 64, type: !76, flags: DIFlagPrototyped, spFlags: DISPFlagOptimized)
!75 = !DIFile(filename: "/usr/include/string.h", directory: "", checksumkind: CSK_MD5, checksum: "0ee11a08692643b86154f96759d0f7fa")
!76 = !DISubroutineType(types: !77)
!77 = !{!32, !78, !78, !80}
!78 = !DIDerivedType(tag: DW_TAG_pointer_type, baseType: !79, size: 64)
!79 = !DIDerivedType(tag: DW_TAG_const_type, baseType: null)
!80 = !DIDerivedType(tag: DW_TAG_typedef, name: "size_t", file: !81, line: 18, baseType: !82)
!81 = !DIFile(filename: "/usr/lib/llvm-19/lib/clang/19/include/__stddef_size_t.h", directory: "", checksumkind: CSK_MD5, checksum: "2c44e821a2b1951cde2eb0fb2e656867")
!82 = !DIBasicType(name: "unsigned long", size: 64, encoding: DW_ATE_unsigned)
